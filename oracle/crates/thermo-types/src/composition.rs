//! Stands in for composition.rs: the entries as given, with no rescaling and no test of the sum.
use crate::InputError;

#[derive(Debug, Clone, PartialEq, Eq)]
pub struct ComponentId(String);

impl ComponentId {
    pub fn new(value: impl Into<String>) -> Result<Self, InputError> {
        Ok(Self(value.into()))
    }
    pub fn as_str(&self) -> &str {
        &self.0
    }
}

#[derive(Debug, Clone, Copy, PartialEq, Eq)]
pub enum CompositionBasis {
    Mole,
}

#[derive(Debug, Clone, Copy, PartialEq, Eq)]
pub enum NormalizationPolicy {
    RequireUnitSum,
}

#[derive(Debug, Clone, PartialEq)]
pub struct Composition {
    basis: CompositionBasis,
    entries: Vec<(ComponentId, f64)>,
}

impl Composition {
    pub fn new(
        basis: CompositionBasis,
        entries: Vec<(ComponentId, f64)>,
        _policy: NormalizationPolicy,
    ) -> Result<Self, InputError> {
        Ok(Self { basis, entries })
    }
    pub fn basis(&self) -> CompositionBasis {
        self.basis
    }
    pub fn entries(&self) -> &[(ComponentId, f64)] {
        &self.entries
    }
}
