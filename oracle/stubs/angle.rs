//! Stands in for `crate::angle`: circuit.rs names it for gates that no job has.

use std::fmt;

#[derive(Clone, Debug, PartialEq)]
pub struct Angle(f64);

#[derive(Debug)]
pub struct AngleError;

impl Angle {
    pub fn from_f64(radians: f64) -> Result<Self, AngleError> {
        Ok(Self(radians))
    }

    pub fn literal_eq(&self, other: &Self) -> bool {
        self == other
    }
}

impl fmt::Display for Angle {
    fn fmt(&self, f: &mut fmt::Formatter<'_>) -> fmt::Result {
        self.0.fmt(f)
    }
}
