//! Prints the smallest word limit that a program is accepted with, by one call.
//!
//! limit               the paper's example
//! limit - < listing   a listing; its own limit is passed over

use std::io::Read;

use werdutxa::{Program, smallest_limit};

const EXAMPLE: &str = include_str!("../../oracle/listing/example.in");

fn main() -> std::io::Result<()> {
    let mut text = EXAMPLE.to_string();
    match std::env::args().nth(1).as_deref() {
        None => {}
        Some("-") => {
            text.clear();
            std::io::stdin().read_to_string(&mut text)?;
        }
        Some(_) => panic!("limit, or limit - < listing"),
    }
    match Program::from_listing(&text).and_then(|(program, options)| smallest_limit(&program, &options)) {
        Ok(limit) => println!("{limit}"),
        Err(refusal) => println!("{refusal}"),
    }
    Ok(())
}
