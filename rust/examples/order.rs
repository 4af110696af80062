//! Rewrites a program in both orders of ties, and prints the T-count that each leaves: neither is always lower.
//!
//! order                      two programs, forwards and backwards
//! order WINDOW - < listing   a listing, with groups of at most WINDOW rotations

use std::io::Read;

use werdutxa::{Options, Program, Refusal, optimize};

/// The T-counts that both orders leave, the old one's first.
fn t_counts(program: &Program, options: &Options) -> Result<[usize; 2], Refusal> {
    let left = |second_exchange_first| {
        let options = Options { second_exchange_first, ..*options };
        optimize(program, &options).map(|rewritten| rewritten.counted.t_after)
    };
    Ok([left(false)?, left(true)?])
}

fn print(name: &str, program: &Program, options: &Options) {
    match t_counts(program, options) {
        Ok([old, new]) => println!("{name}: T-count {old} with the first exchange first, {new} with the second first"),
        Err(refusal) => println!("{name}: {refusal}"),
    }
}

fn examples() {
    let mut axes = ["X0", "X1", "X0", "Z0", "X1"];
    let options = Options { lookback: 0, window: 1, clifford_to_frame: false, ..Options::with_limit(64) };
    for name in ["forwards", "backwards"] {
        let mut program = Program::new(2);
        for axis in axes {
            program.rotate(axis, 1).expect("a Pauli string");
        }
        print(name, &program, &options);
        axes.reverse();
    }
}

fn main() -> std::io::Result<()> {
    let args: Vec<String> = std::env::args().skip(1).collect();
    let args: Vec<&str> = args.iter().map(String::as_str).collect();
    match args[..] {
        [] => examples(),
        [window, "-"] => {
            let window = window.parse().expect("a number of rotations");
            let mut text = String::new();
            std::io::stdin().read_to_string(&mut text)?;
            match Program::from_listing(&text) {
                Ok((program, options)) => print("listing", &program, &Options { window, ..options }),
                Err(refusal) => println!("{refusal}"),
            }
        }
        _ => panic!("order, or order WINDOW - < listing"),
    }
    Ok(())
}
