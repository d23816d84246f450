//! The pieces of thermo_types that the GERG files use. error.rs is upstream's text.
mod composition;
mod error;
pub use composition::{ComponentId, Composition, CompositionBasis, NormalizationPolicy};
pub use error::*;

/// Upstream's quantities refuse a value that is not finite and positive; here every double passes, and the model's own tests decide.
macro_rules! quantity {
    ($name:ident) => {
        #[derive(Debug, Clone, Copy, PartialEq)]
        pub struct $name(f64);
        impl $name {
            pub fn new(value: f64) -> Result<Self, InputError> {
                Ok(Self(value))
            }
            pub fn value(self) -> f64 {
                self.0
            }
        }
    };
}
quantity!(Temperature);
quantity!(Pressure);

#[derive(Debug, Clone, Copy, PartialEq, Eq)]
pub enum ValidityStatus {
    Unassessed,
}
#[derive(Debug, Clone, Copy, PartialEq, Eq)]
pub enum DiagnosticSeverity {
    Information,
}
#[derive(Debug, Clone)]
pub struct Diagnostic {
    pub code: String,
    pub severity: DiagnosticSeverity,
    pub message: String,
}
