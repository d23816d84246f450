//! The density at a pressure where the caller gives no bracket.
use crate::input::Input;
use gerg::{Cause, Density, GAS_CONSTANT, Refusal, Search};

/// The defaults of a search.
pub const LIMIT: u64 = 100;
pub const TOLERANCE: f64 = 1e-10;
/// Each bracket reaches this much above the one before.
pub const STEP: f64 = 1.1;

/// Brackets follow each other upward from a quarter of the ideal gas's density; the first whose ends have the target between them is searched.
/// So it is the lightest density with that pressure, but for two that lie within one bracket. An unstable density on the way is a refusal.
/// A cold liquid of the extended range can have Z above 4: its density is below the first bracket, which is then refused as not bracketing.
pub fn density(input: &Input, t: f64, p: f64, limit: u64, tolerance: f64) -> Result<Density, Refusal> {
    let start = p / (GAS_CONSTANT * t) / 4.0;
    let mut lo = if start.is_finite() { start.clamp(1e-3, 30000.0 / STEP) } else { 1e-3 };
    loop {
        let hi = (lo * STEP).min(30000.0);
        match gerg::density_in(&input.file, &input.mixture, input.range, t, p, Search { lo, hi, limit, tolerance }) {
            Err(refusal) if refusal.cause == Cause::NotBracketed && hi < 30000.0 => lo = hi,
            answer => return answer,
        }
    }
}
