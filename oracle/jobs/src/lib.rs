//! Jobs (one run of Rewriting each), what a run shows, and document 01's output.

mod answer;
mod job;
mod listings;
mod memory;
mod read;
mod seen;
mod word;

pub use answer::{answer, answer_as_called, listing};
pub use job::{Job, Lazy, MAX_LIMIT, NO_TARGET, Options};
pub use listings::{
    LARGEST_OUTPUT, Lent, handed, listed, listing_text, read_listings, refused_listing,
};
pub use memory::{CHAINS, Lengths, Memory, asked, memory, refused_memory};
pub use read::{read_jobs, read_listing};
pub use seen::{Accepted, Counters, Records, Refusal, Seen};
pub use word::{Word, expand};
