//! Stands in for `crate::qasm`: circuit.rs names it, no job reaches it.

use crate::circuit::Circuit;

pub fn serialize(_: &Circuit) -> String {
    unreachable!("no job is written as QASM")
}

pub fn parse(_: &str) -> Result<Circuit, String> {
    unreachable!("no job is read from QASM")
}
