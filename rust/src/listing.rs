//! Listing: the paper's text in, its text out.

use crate::calls::list_into;
use crate::lent::{LISTING_BYTES, Sizes};
use crate::refusal::Refusal;

/// What Listing answers and prints.
#[derive(Clone, Debug, PartialEq, Eq)]
pub struct Listing {
    pub answer: Result<(), Refusal>,
    /// After a refusal its number and eight zeros.
    pub text: String,
}

/// Listing, in memory of its own.
///
/// ```
/// # use werdutxa::{Refusal, list};
/// let listing = list("no listing");
/// assert_eq!(listing.answer, Err(Refusal::BadText));
/// assert_eq!(listing.text, "      11       0       0       0       0       0       0       0       0\n");
/// ```
pub fn list(text: &str) -> Listing {
    let mut output = vec![0; LISTING_BYTES];
    let (answer, size) = Sizes::of_listing().lend(|memory| list_into(text.as_bytes(), &mut output, memory));
    output.truncate(size);
    Listing { answer, text: String::from_utf8(output).expect("a listing is digits and blanks") }
}
