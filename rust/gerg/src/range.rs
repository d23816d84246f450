//! The two ranges of the equation, and the calls that are told which.
use crate::{Density, Mixture, Refusal, Search, State, exports};

/// Temperatures and pressures that a call takes. Densities are in 1e-3..30000 mol/m³ in both, and what a call accepts in the normal range
/// has the same bits in both. Roots, saturation and drawn states know the normal range only.
#[derive(Clone, Copy, Debug, Default, PartialEq, Eq)]
pub enum Range {
    /// 200 to 450 K, pressures up to 35 MPa.
    #[default]
    Normal,
    /// 60 to 700 K, pressures up to 70 MPa.
    Extended,
}

impl Range {
    pub const ALL: [Range; 2] = [Range::Normal, Range::Extended];

    pub fn name(self) -> &'static str {
        match self {
            Range::Normal => "normal",
            Range::Extended => "extended",
        }
    }

    /// Lowest and highest, K.
    pub fn temperatures(self) -> [f64; 2] {
        match self {
            Range::Normal => [200.0, 450.0],
            Range::Extended => [60.0, 700.0],
        }
    }

    /// Pa, of a state and of a search's target.
    pub fn highest_pressure(self) -> f64 {
        match self {
            Range::Normal => 35e6,
            Range::Extended => 70e6,
        }
    }
}

/// [`properties`](crate::properties) in a range.
///
/// ```
/// use gerg::{Component::Hydrogen, Mixture, Range};
/// let (file, hydrogen) = (std::fs::read(gerg::DEFAULT_FILE).unwrap(), Mixture::new([(Hydrogen, 1.0)]));
/// let state = gerg::properties_in(&file, &hydrogen, Range::Extended, 77.0, 40.0).unwrap();
/// assert!((state.compressibility - 1.0).abs() < 0.01);
/// assert_eq!(gerg::properties_in(&file, &hydrogen, Range::Normal, 77.0, 40.0).unwrap_err().number(), 8);
/// ```
pub fn properties_in(file: &[u8], mixture: &Mixture, range: Range, t: f64, rho: f64) -> Result<State, Refusal> {
    let mut out = [0.0; 24];
    Refusal::answered(exports::properties(file, mixture, range, t, rho, &mut out))?;
    Ok(State::from_places(&out))
}

/// [`fugacity`](crate::fugacity) in a range.
///
/// ```
/// use gerg::{Component::*, Mixture, Range};
/// let file = std::fs::read(gerg::DEFAULT_FILE).unwrap();
/// let ln_phi = gerg::fugacity_in(&file, &Mixture::new([(Hydrogen, 1.0), (Helium, 0.0)]), Range::Extended, 77.0, 40.0).unwrap();
/// assert!(ln_phi.len() == 2 && ln_phi[0] < ln_phi[1]);
/// ```
pub fn fugacity_in(file: &[u8], mixture: &Mixture, range: Range, t: f64, rho: f64) -> Result<Vec<f64>, Refusal> {
    let mut out = vec![0.0; mixture.components().len()];
    Refusal::answered(exports::fugacity(file, mixture, range, t, rho, &mut out))?;
    Ok(out)
}

/// [`density`](crate::density) in a range.
///
/// ```
/// use gerg::{Component::Hydrogen, Mixture, Range, Search};
/// let (file, hydrogen) = (std::fs::read(gerg::DEFAULT_FILE).unwrap(), Mixture::new([(Hydrogen, 1.0)]));
/// let found = gerg::density_in(&file, &hydrogen, Range::Extended, 300.0, 60e6, Search::between(1000.0, 30000.0)).unwrap();
/// assert!((found.state.pressure / 60e6 - 1.0).abs() <= 1e-10);
/// assert_eq!(gerg::density(&file, &hydrogen, 300.0, 60e6, Search::between(1000.0, 30000.0)).unwrap_err().number(), 14);
/// ```
pub fn density_in(file: &[u8], mixture: &Mixture, range: Range, t: f64, target: f64, search: Search) -> Result<Density, Refusal> {
    let mut n = [0.0; 30];
    Refusal::answered(exports::density(file, mixture, range, t, target, &search, &mut n))?;
    let state = State::from_places(&n);
    Ok(Density { state, residual: n[24], trials: n[25] as u64, first_bracket: [n[26], n[27]], last_bracket: [n[28], n[29]] })
}
