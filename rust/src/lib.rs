//! Werdutxa for Rust: a proved rewriter of rotations in Pauli-based programs.
//!
//! A [`Program`] is built from Pauli strings or records; [`optimize`] rewrites it by [`Options`], in memory of its own, and hands back what is
//! [`Rewritten`] or the [`Refusal`]; [`show`] has both as Pauli strings. [`rewrite`], [`check`] and [`list_into`] are the same calls on lent
//! slices and allocate nothing. [`list`] is the paper's Listing.
//!
//! What is proved is the library that this crate links; what is here reads and writes its records.

mod calls;
mod cut;
mod lent;
mod listing;
mod options;
mod pauli;
mod program;
mod refusal;
mod result;
mod show;
mod values;

pub use calls::{check, list_into, rewrite};
pub use cut::NoCut;
pub use lent::{CHAINS, Counted, LISTING_BYTES, MINUS_ONE, Memory, NONE, Records, Sizes, width};
pub use listing::{Listing, list};
pub use options::{LARGEST, Lazy, Options, Strategy};
pub use pauli::{Letter, NoPauli, Pauli};
pub use program::{NodeRecord, OperationRecord, Program, Row, RowRecord};
pub use refusal::Refusal;
pub use result::{FrameRow, Operation, Rewritten, View, optimize, smallest_limit};
pub use show::show;

/// The jobs of docs/REFUSALS.md, run as they stand there.
#[cfg(doctest)]
#[doc = include_str!("../../docs/REFUSALS.md")]
struct Refusals;

/// The job of docs/CUTTING.md.
#[cfg(doctest)]
#[doc = include_str!("../../docs/CUTTING.md")]
struct Cutting;
