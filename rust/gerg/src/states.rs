//! States by the thousand from one seed.
use crate::{Cause, Mixture, Refusal, exports};
use std::iter::Sum;
use std::ops::AddAssign;

/// A temperature and a density drawn from a seed.
#[derive(Clone, Copy, Debug, PartialEq)]
pub struct DrawnState {
    /// K, in 200..450
    pub temperature: f64,
    /// mol/m³, in 1e-3..30000
    pub density: f64,
}

/// State `n` of a seed, the first being 0, drawn as docs/METROLOGY.md says. It takes 2n + 2 draws, and the equations are worked out for no state.
///
/// ```
/// let state = gerg::state_at(1, 0).unwrap();
/// assert_eq!((state.temperature, state.density), (354.5084972021412, 8956.858024434841));
/// assert_eq!(gerg::state_at(0, 0).unwrap_err().number(), 27);
/// ```
pub fn state_at(seed: u64, n: u32) -> Result<DrawnState, Refusal> {
    let mut out = [0.0; 2];
    Refusal::answered(exports::state_at(seed, n, &mut out))?;
    Ok(DrawnState { temperature: out[0], density: out[1] })
}

/// Of the states of a run, how many were accepted and how many refused under each number.
#[derive(Clone, Copy, Debug, PartialEq, Eq)]
pub struct Counts([u64; 38]);

impl Counts {
    pub fn accepted(&self) -> u64 {
        self.0[0]
    }

    pub fn refused(&self, cause: Cause) -> u64 {
        self.0[cause as usize]
    }

    /// Each cause that refused a state, with its count, in number order.
    pub fn met(&self) -> impl Iterator<Item = (Cause, u64)> {
        Cause::ALL.into_iter().map(|cause| (cause, self.refused(cause))).filter(|(_, count)| *count > 0)
    }
}

/// A run's counts are the sums of its parts'.
impl AddAssign for Counts {
    fn add_assign(&mut self, part: Counts) {
        self.0.iter_mut().zip(part.0).for_each(|(count, more)| *count += more);
    }
}

impl Sum for Counts {
    fn sum<I: Iterator<Item = Counts>>(parts: I) -> Counts {
        parts.fold(Counts([0; 38]), |mut sum, part| {
            sum += part;
            sum
        })
    }
}

/// How many of the states `first`, `first` + 1, .. of a seed, `states` in number, [`properties`](crate::properties) accepts and how many it refuses
/// under each number. The file is read and the mixture prepared once. A zero seed is refused before anything else.
///
/// ```
/// use gerg::{Cause, Component::Methane, Mixture};
/// let (file, gas) = (std::fs::read(gerg::DEFAULT_FILE).unwrap(), Mixture::new([(Methane, 1.0)]));
/// let run = gerg::count_refusals(&file, &gas, 1, 0, 1000).unwrap();
/// assert_eq!(run.accepted() + run.met().map(|(_, count)| count).sum::<u64>(), 1000);
///
/// let mut parts = gerg::count_refusals(&file, &gas, 1, 0, 600).unwrap();
/// parts += gerg::count_refusals(&file, &gas, 1, 600, 400).unwrap();
/// assert_eq!(parts, run);
/// assert_eq!(gerg::count_refusals(&[], &gas, 0, 0, 1000).unwrap_err().cause, Cause::ZeroSeed);
/// ```
pub fn count_refusals(file: &[u8], mixture: &Mixture, seed: u64, first: u32, states: u32) -> Result<Counts, Refusal> {
    let mut out = [0; 38];
    Refusal::answered(exports::count_refusals(file, mixture, seed, first, states, &mut out))?;
    Ok(Counts(out))
}
