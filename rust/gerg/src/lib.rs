//! GERG-2008 gas properties (Kunz and Wagner, ISO 20765-2) from the proved archive `libgerg_api.a`.
//!
//! Units: K, Pa, mol/m³, kg/m³, J/mol, J/(mol K), m/s.
//!
//! Each call but [`state_at`], [`read_list`] and [`write_list`] starts from the bytes of a coefficient file and a mixture; each either answers or says by a
//! [`Refusal`] why not.
//! No call makes a claim about the phase: a state is what the equation gives at that temperature and density. A call that names no [`Range`] is of the
//! normal one.
//!
//! ```
//! use gerg::{Component::*, Mixture, Search};
//! let file = std::fs::read(gerg::DEFAULT_FILE).unwrap();
//! let gas = Mixture::new([(Methane, 0.9), (Ethane, 0.1)]);
//! let found = gerg::density(&file, &gas, 293.15, 5e6, Search::between(1000.0, 4000.0)).unwrap();
//! assert!((found.state.speed_of_sound - 405.96).abs() < 0.1);
//!
//! let refused = gerg::properties(&file, &gas, 199.0, 1000.0).unwrap_err();
//! assert_eq!(refused.number(), 8);
//! assert_eq!(refused.to_string(), "refused, number 8: temperature not in 200..450 K (extended range: 60..700 K) or density not in 1e-3..30000 mol/m³");
//! ```
mod calls;
mod component;
mod exports;
mod lists;
mod range;
mod refusal;
mod states;

pub use calls::{
    Density, Derivatives, Root, Saturation, Search, State, check, density, fugacity, outer_roots, properties, pure_saturation,
};
pub use component::{Component, Mixture, UnknownComponent};
pub use lists::{List, read_list, write_list};
pub use range::{Range, density_in, fugacity_in, properties_in};
pub use refusal::{Cause, Refusal};
pub use states::{Counts, DrawnState, count_refusals, state_at};

/// The coefficient file of this repository.
pub const DEFAULT_FILE: &str = concat!(env!("CARGO_MANIFEST_DIR"), "/../../data/gerg-2008.bin");

/// Bytes of the longest coefficient file that can be accepted.
pub const LONGEST_FILE: usize = 28377;

/// Bytes of a record of a chromatograph's list.
pub const RECORD_BYTES: usize = 6;

/// Records of the longest chromatograph's list that can be accepted.
pub const MOST_RECORDS: usize = 21;

/// What the parts of a chromatograph's list add up to.
pub const TOTAL_PARTS: u32 = 1_000_000;

/// The gas constant of GERG-2008, J/(mol K).
pub const GAS_CONSTANT: f64 = 8.314472;
