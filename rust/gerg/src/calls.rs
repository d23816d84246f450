//! The calls and their answers.
use crate::{Cause, Component, Mixture, Range, Refusal, density_in, exports, fugacity_in, properties_in};

/// Derivatives of the Helmholtz energy over RT: residual (`ar`) by delta (d) and tau (t), ideal (`a0`) by tau,
/// each times that power of delta and tau.
#[derive(Clone, Copy, Debug, PartialEq)]
pub struct Derivatives {
    pub ar: f64,
    pub ar_d: f64,
    pub ar_dd: f64,
    pub ar_t: f64,
    pub ar_tt: f64,
    pub ar_dt: f64,
    pub a0: f64,
    pub a0_t: f64,
    pub a0_tt: f64,
}

/// A homogeneous state. Enthalpy and entropy of the ideal gas are 0 at 298.15 K and 101325 Pa.
#[derive(Clone, Copy, Debug, PartialEq)]
pub struct State {
    /// K
    pub temperature: f64,
    /// mol/m³
    pub molar_density: f64,
    /// kg/m³
    pub mass_density: f64,
    /// Pa
    pub pressure: f64,
    /// Z
    pub compressibility: f64,
    /// Pa m³/mol, at constant temperature
    pub dp_drho: f64,
    /// Pa/K, at constant density
    pub dp_dt: f64,
    /// J/mol
    pub internal_energy: f64,
    /// J/mol
    pub enthalpy: f64,
    /// J/(mol K)
    pub entropy: f64,
    /// J/(mol K)
    pub cv: f64,
    /// J/(mol K)
    pub cp: f64,
    /// m/s
    pub speed_of_sound: f64,
    /// J/mol
    pub helmholtz_energy: f64,
    /// J/mol
    pub gibbs_energy: f64,
    pub derivatives: Derivatives,
}

impl State {
    pub(crate) fn from_places(n: &[f64]) -> State {
        let derivatives =
            Derivatives { ar: n[15], ar_d: n[16], ar_dd: n[17], ar_t: n[18], ar_tt: n[19], ar_dt: n[20], a0: n[21], a0_t: n[22], a0_tt: n[23] };
        State {
            temperature: n[0],
            molar_density: n[1],
            mass_density: n[2],
            pressure: n[3],
            compressibility: n[4],
            dp_drho: n[5],
            dp_dt: n[6],
            internal_energy: n[7],
            enthalpy: n[8],
            entropy: n[9],
            cv: n[10],
            cp: n[11],
            speed_of_sound: n[12],
            helmholtz_energy: n[13],
            gibbs_energy: n[14],
            derivatives,
        }
    }
}

/// Whether a coefficient file is accepted.
///
/// ```
/// let file = std::fs::read(gerg::DEFAULT_FILE).unwrap();
/// assert_eq!(gerg::check(&file), Ok(()));
/// let refused = gerg::check(&file[..100]).unwrap_err();
/// assert_eq!((refused.number(), refused.value), (1, 41));
/// ```
pub fn check(file: &[u8]) -> Result<(), Refusal> {
    // An empty list is refused as the first cause after those of the file.
    let nothing = Mixture::new([]);
    match Refusal::answered(exports::properties(file, &nothing, Range::Normal, 300.0, 1.0, &mut [0.0; 24])) {
        Err(refusal) if refusal.cause == Cause::BadList => Ok(()),
        Err(refusal) => Err(refusal),
        Ok(_) => unreachable!("an empty list is refused"),
    }
}

/// Properties at a temperature (K) and a molar density (mol/m³), in the normal range.
///
/// ```
/// use gerg::{Component::Methane, Mixture};
/// let file = std::fs::read(gerg::DEFAULT_FILE).unwrap();
/// let state = gerg::properties(&file, &Mixture::new([(Methane, 1.0)]), 300.0, 40.0).unwrap();
/// assert!((state.pressure - 99_600.0).abs() < 100.0);
/// ```
pub fn properties(file: &[u8], mixture: &Mixture, t: f64, rho: f64) -> Result<State, Refusal> {
    properties_in(file, mixture, Range::default(), t, rho)
}

/// ln of each listed component's fugacity coefficient, in list order, zero fractions too; in the normal range.
///
/// ```
/// use gerg::{Component::*, Mixture};
/// let file = std::fs::read(gerg::DEFAULT_FILE).unwrap();
/// let ln_phi = gerg::fugacity(&file, &Mixture::new([(Methane, 1.0), (Propane, 0.0)]), 300.0, 40.0).unwrap();
/// assert!(ln_phi[1] < ln_phi[0] && ln_phi[0] < 0.0);
/// ```
pub fn fugacity(file: &[u8], mixture: &Mixture, t: f64, rho: f64) -> Result<Vec<f64>, Refusal> {
    fugacity_in(file, mixture, Range::default(), t, rho)
}

/// Where and how long a density is searched.
#[derive(Clone, Copy, Debug, PartialEq)]
pub struct Search {
    /// mol/m³; 1e-3 ≤ lo < hi ≤ 30000
    pub lo: f64,
    pub hi: f64,
    /// Interior trials, at least 1. No search makes more than 600.
    pub limit: u64,
    /// Of |p − target| / max(target, 1 Pa); positive, at most 1e-7.
    pub tolerance: f64,
}

impl Search {
    /// A bracket with 100 trials and a tolerance of 1e-10.
    pub fn between(lo: f64, hi: f64) -> Search {
        Search { lo, hi, limit: 100, tolerance: 1e-10 }
    }
}

/// A found density.
#[derive(Clone, Copy, Debug, PartialEq)]
pub struct Density {
    pub state: State,
    /// (p − target) / max(target, 1 Pa)
    pub residual: f64,
    /// Interior densities tried; 0 where an end was accepted.
    pub trials: u64,
    pub first_bracket: [f64; 2],
    pub last_bracket: [f64; 2],
}

/// The density in a bracket at which the pressure is the target (Pa), in the normal range. Which of several roots is found follows from the bracket.
///
/// ```
/// use gerg::{Component::Methane, Mixture, Search};
/// let file = std::fs::read(gerg::DEFAULT_FILE).unwrap();
/// let found = gerg::density(&file, &Mixture::new([(Methane, 1.0)]), 300.0, 1e6, Search::between(100.0, 1000.0)).unwrap();
/// assert!((found.state.pressure / 1e6 - 1.0).abs() <= 1e-10 && found.trials <= 100);
/// ```
pub fn density(file: &[u8], mixture: &Mixture, t: f64, target: f64, search: Search) -> Result<Density, Refusal> {
    density_in(file, mixture, Range::default(), t, target, search)
}

/// A density on an exterior branch of the isotherm at which the pressure is the one asked.
#[derive(Clone, Debug, PartialEq)]
pub struct Root {
    /// mol/m³
    pub molar_density: f64,
    /// Pa
    pub pressure: f64,
    pub compressibility: f64,
    /// J/mol
    pub gibbs_energy: f64,
    /// In list order.
    pub ln_fugacity_coefficients: Vec<f64>,
}

/// One between two neighbours of the grid, which has 386 densities at most.
const MOST_ROOTS: usize = 385;

/// The exterior roots at a temperature and a pressure, densities rising. Methane, nitrogen, carbon dioxide, ethane and propane only,
/// 230 to 350 K, 0.1 to 10 MPa. The roots are those seen on a grid: that there are no more is not claimed.
///
/// ```
/// use gerg::{Component::Propane, Mixture};
/// let file = std::fs::read(gerg::DEFAULT_FILE).unwrap();
/// let roots = gerg::outer_roots(&file, &Mixture::new([(Propane, 1.0)]), 270.0, 4e5).unwrap();
/// assert!(roots.len() == 2 && roots[0].molar_density < roots[1].molar_density);
/// ```
pub fn outer_roots(file: &[u8], mixture: &Mixture, t: f64, p: f64) -> Result<Vec<Root>, Refusal> {
    let places = 4 + mixture.components().len();
    let mut out = vec![0.0; MOST_ROOTS * places];
    let count = Refusal::answered(exports::outer_roots(file, mixture, t, p, &mut out))? as usize;
    let root = |n: &[f64]| Root {
        molar_density: n[0],
        pressure: n[1],
        compressibility: n[2],
        gibbs_energy: n[3],
        ln_fugacity_coefficients: n[4..].to_vec(),
    };
    Ok(out.chunks_exact(places).take(count).map(root).collect())
}

/// Two roots of a pure fluid with one fugacity.
#[derive(Clone, Copy, Debug, PartialEq)]
pub struct Saturation {
    /// K
    pub temperature: f64,
    /// Pa
    pub pressure: f64,
    pub liquid_compressibility: f64,
    pub vapour_compressibility: f64,
    /// m³/mol
    pub liquid_molar_volume: f64,
    /// m³/mol
    pub vapour_molar_volume: f64,
    pub ln_fugacity_coefficient: f64,
    /// Difference of ln φ between the two, its size.
    pub residual: f64,
    pub iterations: u64,
}

/// The temperature between two ends (K) at which a pure fluid's outermost roots at a pressure (Pa) have one fugacity; `None` where the ends
/// do not enclose it.
///
/// ```
/// use gerg::{Component::Propane, Mixture};
/// let file = std::fs::read(gerg::DEFAULT_FILE).unwrap();
/// let found = gerg::pure_saturation(&file, &Mixture::new([(Propane, 1.0)]), 5e5, [250.0, 300.0], 100).unwrap().unwrap();
/// assert!((found.temperature - 274.9).abs() < 0.2);
/// ```
pub fn pure_saturation(file: &[u8], mixture: &Mixture, p: f64, ends: [f64; 2], limit: u64) -> Result<Option<Saturation>, Refusal> {
    let mut n = [0.0; 9];
    let found = Refusal::answered(exports::pure_saturation(file, mixture, p, ends, limit, &mut n))?;
    Ok((found == 1).then(|| Saturation {
        temperature: n[0],
        pressure: n[1],
        liquid_compressibility: n[2],
        vapour_compressibility: n[3],
        liquid_molar_volume: n[4],
        vapour_molar_volume: n[5],
        ln_fugacity_coefficient: n[6],
        residual: n[7],
        iterations: n[8] as u64,
    }))
}

impl Component {
    /// Whether [`outer_roots`] and [`pure_saturation`] take it.
    pub fn has_roots(self) -> bool {
        self.number() <= 5
    }
}
