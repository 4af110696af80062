//! Why a call was refused.

use std::fmt;

/// Why a call was refused, by the papers' numbers. `docs/REFUSALS.md` says for each what to do.
///
/// ```
/// # use werdutxa::Refusal;
/// assert_eq!(Refusal::BadQubit.number(), 5);
/// assert_eq!(Refusal::BadQubit.to_string(), "refused by 5: A node's qubit is not below the number of qubits.");
/// ```
#[derive(Clone, Copy, Debug, PartialEq, Eq)]
pub enum Refusal {
    CountOutside = 1,
    OptionOutside = 2,
    SliceShort = 3,
    BadNode = 4,
    BadQubit = 5,
    BadReference = 6,
    BadOperation = 7,
    BadOutcome = 8,
    NonHermitianAxis = 9,
    ExpansionLimit = 10,
    BadText = 11,
    BadPlace = 16,
}

impl Refusal {
    /// All of them, by number.
    pub const ALL: [Self; 12] = [
        Self::CountOutside,
        Self::OptionOutside,
        Self::SliceShort,
        Self::BadNode,
        Self::BadQubit,
        Self::BadReference,
        Self::BadOperation,
        Self::BadOutcome,
        Self::NonHermitianAxis,
        Self::ExpansionLimit,
        Self::BadText,
        Self::BadPlace,
    ];

    /// The papers' number, 1 to 11 or 16.
    pub fn number(self) -> u32 {
        self as u32
    }

    /// What is wrong, as a sentence.
    pub fn sentence(self) -> &'static str {
        match self {
            Self::CountOutside => "There are more than 4,096 qubits, more than 65,535 nodes or operations, or no node.",
            Self::OptionOutside => "Rounds are above 255, or lookback, window, candidates or word limit above 1,048,576.",
            Self::SliceShort => "A slice is shorter than its records, or than the memory that the job needs.",
            Self::BadNode => {
                "Node 0 is not the identity, a kind, letter or phase is unknown, or a child is not below its product."
            }
            Self::BadQubit => "A node's qubit is not below the number of qubits.",
            Self::BadReference => "An operation or row names a node or phase that does not exist, or a row is out of turn.",
            Self::BadOperation => "An operation's kind is unknown, its angle above 7, or its outcome or target too large.",
            Self::BadOutcome => "An outcome is measured twice, or a condition is not measured earlier.",
            Self::NonHermitianAxis => {
                "An operation, or a row that is a root, is i or -i times a Pauli string: it is not Hermitian."
            }
            Self::ExpansionLimit => "The run needs more words than the word limit.",
            Self::BadText => "The text is no listing.",
            Self::BadPlace => "The named place is outside the program or holds a plain rotation.",
        }
    }

    /// What a call's number says.
    pub(crate) fn of_answer(answer: u32) -> Result<(), Self> {
        if answer == 0 {
            return Ok(());
        }
        let refusal = Self::ALL.into_iter().find(|refusal| refusal.number() == answer);
        Err(refusal.expect("a call answers by no other number"))
    }
}

impl fmt::Display for Refusal {
    fn fmt(&self, f: &mut fmt::Formatter<'_>) -> fmt::Result {
        write!(f, "refused by {}: {}", self.number(), self.sentence())
    }
}

impl std::error::Error for Refusal {}
