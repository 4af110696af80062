//! Stands in for the budgeted expansion of expressions; the optimizer does not reach it, and the driver expands by itself.

use std::collections::BTreeMap;

use super::{Pauli, PauliArena, PauliRef, Phase};
use crate::circuit::Qubit;

use super::PbcError;

pub(crate) type Factors = BTreeMap<Qubit, Pauli>;

pub(crate) struct Work {
    pub work: usize,
}

impl PauliArena {
    pub(crate) fn materialize(
        &self,
        _roots: &[PauliRef],
        _max_work: usize,
        _visit: impl FnMut(usize, Phase, &Factors) -> Result<(), PbcError>,
    ) -> Result<Work, PbcError> {
        unreachable!("the optimizer expands nothing")
    }
}
