//! Prepares a job in two parts, cut behind a measurement, and compares the results with the whole's: without absorption, by one round of the
//! merge strategy.
//!
//! cut                     a job for two days
//! cut PLACE - < listing   a listing, cut behind the measurement at PLACE, counted from 0; its own limit is passed over

use std::error::Error;
use std::io::Read;

use werdutxa::{LARGEST, NoPauli, Options, Program, Rewritten, View, optimize};

/// The operations that came out, as Pauli strings, and the words that the run needs.
fn print(name: &str, qubits: usize, rewritten: &Rewritten) {
    let (counted, operations) = (rewritten.counted, rewritten.operations.clone());
    println!("{name}, {} words", counted.packed_words);
    println!("{}", View { qubits, operations, frame: vec![] });
}

/// Whether the parts' operations, one behind the other, are the whole's; and how merges and exchanges add up.
fn print_sums(whole: &Rewritten, earlier: &Rewritten, later: &Rewritten) {
    let operations = [&earlier.operations[..], &later.operations[..]].concat();
    let verb = if operations == whole.operations { "are" } else { "are not" };
    println!("one behind the other, the parts' operations {verb} the whole's");
    let [whole, earlier, later] = [whole, earlier, later].map(|rewritten| rewritten.counted);
    println!("merges {} and {}, of the whole {}", earlier.merges, later.merges, whole.merges);
    println!("exchanges {} and {}, of the whole {}", earlier.swaps, later.swaps, whole.swaps);
}

fn compare(program: &Program, place: usize, options: &Options) -> Result<(), Box<dyn Error>> {
    let (earlier, later) = program.cut_after(place)?;
    let (whole, earlier, later) = (optimize(program, options)?, optimize(&earlier, options)?, optimize(&later, options)?);
    for (name, rewritten) in [("whole", &whole), ("earlier part", &earlier), ("later part", &later)] {
        print(name, program.qubits(), rewritten);
    }
    print_sums(&whole, &earlier, &later);
    Ok(())
}

/// One day ends with the measurement at place 3; the next names no outcome of it.
fn two_days() -> Result<Program, NoPauli> {
    let mut program = Program::new(2);
    program.rotate("XI", 1)?.rotate("IX", 1)?.rotate("XI", 1)?.measure("ZZ", 0, None)?;
    program.rotate("IZ", 1)?.rotate("IZ", 1)?.measure("XX", 1, Some(7))?.conditional_rotate("ZI", 2, 1)?;
    Ok(program)
}

fn example() -> Result<(), Box<dyn Error>> {
    let options = Options { lookback: 0, window: 1, rounds: 1, clifford_to_frame: false, ..Options::with_limit(64) };
    compare(&two_days()?, 3, &options)
}

fn listing(place: usize) -> Result<(), Box<dyn Error>> {
    let mut text = String::new();
    std::io::stdin().read_to_string(&mut text)?;
    let (program, options) = Program::from_listing(&text)?;
    compare(&program, place, &Options { rounds: 1, clifford_to_frame: false, max_packed_words: LARGEST, ..options })
}

fn main() {
    let args: Vec<String> = std::env::args().skip(1).collect();
    let args: Vec<&str> = args.iter().map(String::as_str).collect();
    let compared = match args[..] {
        [] => example(),
        [place, "-"] => listing(place.parse().expect("a place")),
        _ => panic!("cut, or cut PLACE - < listing"),
    };
    if let Err(error) = compared {
        println!("{error}");
    }
}
