//! Prints a program before and after, as Pauli strings.
//!
//! show                     the paper's example
//! show - < listing         a listing
//! show PLACE - < listing   a listing, lazy behind the operation at PLACE, counted from 0

use std::io::Read;

use werdutxa::{Lazy, Options, Program, show};

const EXAMPLE: &str = include_str!("../../oracle/listing/example.in");

fn read() -> std::io::Result<String> {
    let mut text = String::new();
    std::io::stdin().read_to_string(&mut text)?;
    Ok(text)
}

fn main() -> std::io::Result<()> {
    let args: Vec<String> = std::env::args().skip(1).collect();
    let args: Vec<&str> = args.iter().map(String::as_str).collect();
    let (text, lazy_cliffords) = match args[..] {
        [] => (EXAMPLE.to_string(), Lazy::Off),
        ["-"] => (read()?, Lazy::Off),
        [place, "-"] => (read()?, Lazy::From(place.parse().expect("a place"))),
        _ => panic!("show, show - < listing, or show PLACE - < listing"),
    };
    match Program::from_listing(&text) {
        Ok((program, options)) => print!("{}", show(&program, &Options { lazy_cliffords, ..options })),
        Err(refusal) => println!("{refusal}"),
    }
    Ok(())
}
