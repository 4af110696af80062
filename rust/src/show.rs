//! A program before and after, for people who look.

use crate::options::Options;
use crate::program::Program;
use crate::refusal::Refusal;
use crate::result::{Rewritten, View, optimize};

/// The program as Pauli strings, before and after, and what was counted; or why it is refused.
///
/// Where the run changed to lazy absorption ([`Lazy::From`](crate::Lazy::From)) a last line has the operation and its place, counted from 0.
///
/// ```
/// # use werdutxa::{Lazy, NoPauli, Options, Program, show};
/// let mut program = Program::new(1);
/// program.rotate("X", 1)?.measure("Z", 0, None)?.rotate("X", 2)?;
/// let options = Options { lazy_cliffords: Lazy::From(1), ..Options::default() };
/// assert!(show(&program, &options).ends_with("\nlazy behind operation 1: measure  Z  outcome 0\n"));
/// # Ok::<(), NoPauli>(())
/// ```
pub fn show(program: &Program, options: &Options) -> String {
    match (optimize(program, options), program.view()) {
        (Ok(rewritten), Some(source)) => {
            format!("before\n{source}\n{}{}", after(&rewritten, &source), change(&source, options.changes_at()))
        }
        // With these the records are good.
        (Err(refusal @ (Refusal::BadPlace | Refusal::NonHermitianAxis | Refusal::ExpansionLimit)), Some(source)) => {
            format!("before\n{source}\n{refusal}\n")
        }
        (Err(refusal), _) => format!("{refusal}\n"),
        (Ok(_), None) => unreachable!("an accepted program's records are good"),
    }
}

fn after(rewritten: &Rewritten, source: &View) -> String {
    let counted = rewritten.counted;
    let t_count = format!("T-count {} before, {} after", counted.t_before, counted.t_after);
    let passes = format!("merges {}, exchanges {}, absorbed {}", counted.merges, counted.swaps, counted.cliffords_to_frame);
    format!("after\n{}\n{t_count}\n{passes}\n", rewritten.view(source))
}

/// Where a run changed to lazy absorption, if it did.
fn change(source: &View, place: Option<usize>) -> String {
    let line = |place: usize| format!("lazy behind operation {place}: {}\n", source.line(&source.operations[place], 0));
    place.map(line).unwrap_or_default()
}
