//! Rewrites a program with even rotations absorbed at once, lazily, and lazily behind each of its measurements and conditional rotations, and
//! prints the T-count that each leaves and the words that it needs. A place may need fewer words than both.
//!
//! place               two programs
//! place - < listing   a listing; its own limit is passed over

use std::io::Read;

use werdutxa::{LARGEST, Lazy, Operation, Options, Program, Refusal, optimize};

/// The places that may be named.
fn places(program: &Program) -> Vec<usize> {
    let operations = program.view().map_or(vec![], |view| view.operations);
    let is_plain = |place: usize| matches!(operations[place], Operation::Rotate { .. });
    (0..operations.len()).filter(|&place| !is_plain(place)).collect()
}

fn try_places(name: &str, program: &Program, options: &Options) -> Result<(), Refusal> {
    let try_setting = |setting: &str, lazy_cliffords| {
        let counted = optimize(program, &Options { lazy_cliffords, ..*options })?.counted;
        println!("{name}, {setting}: T-count {}, {} words", counted.t_after, counted.packed_words);
        Ok(())
    };
    try_setting("at once", Lazy::Off)?;
    try_setting("lazy", Lazy::On)?;
    places(program).into_iter().try_for_each(|place| try_setting(&format!("lazy behind operation {place}"), Lazy::From(place)))
}

fn print(name: &str, program: &Program, options: &Options) {
    if let Err(refusal) = try_places(name, program, options) {
        println!("{name}: {refusal}");
    }
}

/// Rotations before a measurement and behind it, by eighths.
fn program(qubits: usize, before: &[(&str, i32)], measured: &str, behind: &[(&str, i32)]) -> Program {
    let mut program = Program::new(qubits);
    for (axis, angle) in before {
        program.rotate(axis, *angle).expect("a Pauli string");
    }
    program.measure(measured, 0, None).expect("a Pauli string");
    for (axis, angle) in behind {
        program.rotate(axis, *angle).expect("a Pauli string");
    }
    program
}

fn examples() {
    let options = Options::with_limit(64);
    let turned = [("X", 1), ("Z", 2), ("Y", 1)];
    let one_round = Options { lookback: 0, rounds: 1, ..options };
    print("one qubit", &program(1, &turned, "Z", &turned), &one_round);
    let behind = [("ZI", 2), ("IZ", 2), ("ZI", 1)];
    print("two qubits", &program(2, &[("IZ", 1), ("IZ", 2)], "ZI", &behind), &options);
}

fn main() -> std::io::Result<()> {
    match std::env::args().nth(1).as_deref() {
        None => examples(),
        Some("-") => {
            let mut text = String::new();
            std::io::stdin().read_to_string(&mut text)?;
            match Program::from_listing(&text) {
                Ok((program, options)) => print("listing", &program, &Options { max_packed_words: LARGEST, ..options }),
                Err(refusal) => println!("{refusal}"),
            }
        }
        Some(_) => panic!("place, or place - < listing"),
    }
    Ok(())
}
