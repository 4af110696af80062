//! Pauli strings with a phase.

use std::fmt;
use std::str::FromStr;
use std::sync::Arc;

use crate::lent::MOST_QUBITS;

/// A letter other than I, by the paper's number.
#[derive(Clone, Copy, Debug, PartialEq, Eq, PartialOrd, Ord, Hash)]
pub enum Letter {
    X = 1,
    Y = 2,
    Z = 3,
}

/// A power of i times a product of letters on different qubits.
///
/// It is read from and printed as a string: a phase (nothing, `+`, `-`, `i`, `+i` or `-i`), then a letter for each qubit from qubit 0 on, or
/// letters with their qubits between blanks, in any order. I may be written or left out; a lone `I` is the identity.
///
/// ```
/// # use werdutxa::Pauli;
/// let dense: Pauli = "-XIZ".parse()?;
/// let sparse: Pauli = "-X0 Z2".parse()?;
/// assert_eq!(dense, sparse);
/// assert_eq!(dense, "-Z2 I1 X0".parse()?);
/// assert_eq!(dense.to_string(), "-X0 Z2");
/// assert_eq!(dense.dense(3), "-XIZ");
/// # Ok::<(), werdutxa::NoPauli>(())
/// ```
///
/// A qubit is digits without a sign and without leading zeros, as a number of a listing, and stands once; it may be as large as a `usize`.
///
/// ```
/// # use werdutxa::Pauli;
/// for text in ["X01", "X+1", "X0 I0", "X18446744073709551616", ""] {
///     assert!(text.parse::<Pauli>().is_err());
/// }
/// ```
#[derive(Clone, Debug, Default, PartialEq, Eq, Hash)]
pub struct Pauli {
    /// How many quarter turns, 0 to 3.
    phase: u32,
    /// By rising qubit; copies share them, so that many operations about one axis take little room.
    letters: Arc<[(usize, Letter)]>,
}

/// A string that is no Pauli string.
#[derive(Clone, Debug, PartialEq, Eq)]
pub struct NoPauli(String);

impl fmt::Display for NoPauli {
    fn fmt(&self, f: &mut fmt::Formatter<'_>) -> fmt::Result {
        write!(f, "{:?} is no Pauli string", self.0)
    }
}

impl std::error::Error for NoPauli {}

impl Letter {
    fn of_number(number: u32) -> Option<Self> {
        [None, Some(Self::X), Some(Self::Y), Some(Self::Z)].get(number as usize).copied().flatten()
    }

    fn name(self) -> char {
        [' ', 'X', 'Y', 'Z'][self as usize]
    }

    /// The product's letter and quarter turns: XY = iZ, YX = -iZ.
    fn times(self, other: Self) -> (Option<Self>, u32) {
        let (a, b) = (self as u32, other as u32);
        match (3 + b - a) % 3 {
            0 => (None, 0),
            1 => (Self::of_number(6 - a - b), 1),
            _ => (Self::of_number(6 - a - b), 3),
        }
    }
}

impl Pauli {
    /// One letter on one qubit.
    pub fn letter(qubit: usize, letter: Letter) -> Self {
        Self { phase: 0, letters: Arc::new([(qubit, letter)]) }
    }

    /// Letters by rising qubit, and so many quarter turns.
    pub(crate) fn new(quarters: u32, letters: Vec<(usize, Letter)>) -> Self {
        Self { phase: quarters % 4, letters: letters.into() }
    }

    /// How many quarter turns stand in front, 0 to 3: 2 is a minus.
    pub fn phase(&self) -> u32 {
        self.phase
    }

    /// The letters other than I, by rising qubit.
    pub fn letters(&self) -> &[(usize, Letter)] {
        &self.letters
    }

    /// With so many more quarter turns in front.
    pub fn turned(mut self, quarters: u32) -> Self {
        self.phase = (self.phase + quarters % 4) % 4;
        self
    }

    /// The product, with its phase.
    pub fn times(&self, other: &Self) -> Self {
        let mut letters: Vec<(usize, Letter)> = Vec::new();
        let mut phase = self.phase + other.phase;
        let (mut left, mut right) = (self.letters.iter().peekable(), other.letters.iter().peekable());
        loop {
            let next = match (left.peek(), right.peek()) {
                (Some(a), Some(b)) if a.0 == b.0 => {
                    let (letter, turns) = a.1.times(b.1);
                    phase = (phase + turns) % 4;
                    letters.extend(letter.map(|letter| (a.0, letter)));
                    left.next();
                    right.next();
                    continue;
                }
                (Some(a), Some(b)) if a.0 < b.0 => left.next(),
                (Some(_), None) => left.next(),
                (_, Some(_)) => right.next(),
                (None, None) => return Self::new(phase, letters),
            };
            letters.extend(next);
        }
    }

    /// The letters of a packed word: x-words, then z-words.
    pub(crate) fn unpacked(word: &[u64]) -> Self {
        let (x, z) = word.split_at(word.len() / 2);
        let columns = x.iter().zip(z).enumerate();
        Self { phase: 0, letters: columns.flat_map(|(column, (&x, &z))| unpacked_letters(column, x, z)).collect() }
    }

    fn sign(&self) -> &'static str {
        ["", "i", "-", "-i"][self.phase as usize]
    }

    /// A letter for each qubit, I included, and beyond `qubits` up to the last that has one; on no qubits a lone I. Where these are more than
    /// 4,096, which no program has, letters with their qubits.
    pub fn dense(&self, qubits: usize) -> String {
        let last = self.letters.last().map_or(0, |&(qubit, _)| qubit);
        let length = qubits.max(last.saturating_add(1));
        if length > MOST_QUBITS {
            return self.to_string();
        }
        let mut letters = vec!['I'; length];
        for &(qubit, letter) in self.letters.iter() {
            letters[qubit] = letter.name();
        }
        self.sign().chars().chain(letters).collect()
    }
}

impl fmt::Display for Pauli {
    fn fmt(&self, f: &mut fmt::Formatter<'_>) -> fmt::Result {
        let letters: Vec<String> = self.letters.iter().map(|(qubit, letter)| format!("{}{qubit}", letter.name())).collect();
        let letters = if letters.is_empty() { "I".to_string() } else { letters.join(" ") };
        f.pad(&format!("{}{letters}", self.sign()))
    }
}

impl FromStr for Pauli {
    type Err = NoPauli;

    fn from_str(text: &str) -> Result<Self, NoPauli> {
        read(text).map(|(pauli, _)| pauli)
    }
}

/// A qubit and its letter, nothing for I.
type Named = (usize, Option<Letter>);

/// A Pauli string, and the largest qubit that it names, be it with I; a lone I names none.
pub(crate) fn read(text: &str) -> Result<(Pauli, Option<usize>), NoPauli> {
    let phases = [("-i", 3), ("+i", 1), ("i", 1), ("-", 2), ("+", 0)];
    let sign = phases.iter().find_map(|&(sign, phase)| Some((text.strip_prefix(sign)?, phase)));
    let (letters, phase) = sign.unwrap_or((text, 0));
    let named = if letters.contains(|c: char| c.is_ascii_digit()) { sparse(letters) } else { dense(letters) };
    let named = named.ok_or_else(|| NoPauli(text.to_string()))?;
    let largest = if letters == "I" { None } else { named.last().map(|&(qubit, _)| qubit) };
    let letters = named.into_iter().filter_map(|(qubit, letter)| Some((qubit, letter?))).collect();
    Ok((Pauli::new(phase, letters), largest))
}

/// A letter for each qubit from qubit 0 on.
fn dense(text: &str) -> Option<Vec<Named>> {
    let named = text.chars().enumerate().map(|(qubit, name)| Some((qubit, letter_named(name)?)));
    named.collect::<Option<Vec<Named>>>().filter(|named| !named.is_empty())
}

/// Letters with their qubits, between blanks, each qubit once.
fn sparse(text: &str) -> Option<Vec<Named>> {
    let mut named = text.split_whitespace().map(with_qubit).collect::<Option<Vec<Named>>>()?;
    named.sort();
    let once = named.windows(2).all(|pair| pair[0].0 != pair[1].0);
    once.then_some(named)
}

/// A letter and its qubit: digits without leading zeros.
fn with_qubit(field: &str) -> Option<Named> {
    let mut rest = field.chars();
    let letter = letter_named(rest.next()?)?;
    let digits = rest.as_str();
    let is_number = digits.bytes().all(|digit| digit.is_ascii_digit()) && (digits == "0" || !digits.starts_with('0'));
    is_number.then(|| Some((digits.parse().ok()?, letter))).flatten()
}

/// A letter by its name, I included.
fn letter_named(name: char) -> Option<Option<Letter>> {
    "IXYZ".find(name).map(|number| Letter::of_number(number as u32))
}

/// The letters of the 64 qubits of a column, by rising qubit: X has x, Z has z, Y both.
pub(crate) fn unpacked_letters(column: usize, x: u64, z: u64) -> impl Iterator<Item = (usize, Letter)> {
    (0..64).filter_map(move |place| {
        let letter = match (x >> place & 1, z >> place & 1) {
            (0, 0) => return None,
            (_, 0) => Letter::X,
            (0, _) => Letter::Z,
            _ => Letter::Y,
        };
        Some((64 * column + place, letter))
    })
}
