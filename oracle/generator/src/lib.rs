//! Jobs for the driver: random ones from a seed, directed ones for single rules, the fixed list, and those for the gate.

pub mod chains;
pub mod checked;
mod classes;
pub mod cuts;
pub mod directed;
pub mod fixed;
mod frame;
pub mod large;
pub mod limit;
pub mod listings;
mod listings_refused;
pub mod named;
mod notation;
mod operations;
mod options;
pub mod packing;
mod pinned;
mod pool;
mod program;
pub mod random;
pub mod rewriting;
pub mod rng;
pub mod tie_order;
pub mod timed;
