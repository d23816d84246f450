//! The proved library through its C exports; with the feature `extended` those of the extended range, where there is one.
use crate::case::{Answer, Call, Case, lent};

unsafe extern "C" {
    #[cfg_attr(feature = "extended", link_name = "gerg_properties_extended")]
    fn gerg_properties(file: *const u8, file_len: usize, list: *const u8, list_len: usize, x: *const f64, x_len: usize, t: f64, rho: f64, out: *mut f64) -> u64;
    #[cfg_attr(feature = "extended", link_name = "gerg_fugacity_extended")]
    fn gerg_fugacity(file: *const u8, file_len: usize, list: *const u8, list_len: usize, x: *const f64, x_len: usize, t: f64, rho: f64, out: *mut f64, out_len: usize) -> u64;
    #[cfg_attr(feature = "extended", link_name = "gerg_density_extended")]
    fn gerg_density(
        file: *const u8, file_len: usize, list: *const u8, list_len: usize, x: *const f64, x_len: usize,
        t: f64, target: f64, lo: f64, hi: f64, limit: u64, tolerance: f64, out: *mut f64,
    ) -> u64;
    #[cfg(feature = "equilibrium")]
    fn gerg_outer_roots(file: *const u8, file_len: usize, list: *const u8, list_len: usize, x: *const f64, x_len: usize, t: f64, p: f64, out: *mut f64, out_len: usize) -> u64;
    #[cfg(feature = "equilibrium")]
    fn gerg_pure_saturation(
        file: *const u8, file_len: usize, list: *const u8, list_len: usize, x: *const f64, x_len: usize,
        p: f64, lo: f64, hi: f64, limit: u64, out: *mut f64,
    ) -> u64;
}

/// How many places an export with an array of fixed length writes to.
pub fn room_of(call: &Call) -> Option<usize> {
    match call {
        Call::Properties { .. } => Some(24),
        Call::Density { .. } => Some(30),
        Call::Saturation { .. } => Some(9),
        Call::Fugacity { .. } | Call::Roots { .. } => None,
    }
}

pub fn answer(file: &[u8], case: &Case) -> Answer {
    if let Some(room) = room_of(&case.call) {
        assert_eq!(room, case.room);
    }
    let mut out = lent(case.room);
    let (list, x) = (&case.mixture.list, &case.mixture.fractions);
    let (f, fl, l, ll, xp, xl) = (file.as_ptr(), file.len(), list.as_ptr(), list.len(), x.as_ptr(), x.len());
    let (o, ol) = (out.as_mut_ptr(), out.len());
    // SAFETY: each pointer goes with its length, and `out` has the places that the export's array has.
    let code = unsafe {
        match case.call {
            Call::Properties { t, rho } => gerg_properties(f, fl, l, ll, xp, xl, t, rho, o),
            Call::Fugacity { t, rho } => gerg_fugacity(f, fl, l, ll, xp, xl, t, rho, o, ol),
            Call::Density { t, target, lo, hi, limit, tolerance } => gerg_density(f, fl, l, ll, xp, xl, t, target, lo, hi, limit, tolerance, o),
            #[cfg(feature = "equilibrium")]
            Call::Roots { t, p } => gerg_outer_roots(f, fl, l, ll, xp, xl, t, p, o, ol),
            #[cfg(feature = "equilibrium")]
            Call::Saturation { p, lo, hi, limit } => gerg_pure_saturation(f, fl, l, ll, xp, xl, p, lo, hi, limit, o),
            #[cfg(not(feature = "equilibrium"))]
            Call::Roots { .. } | Call::Saturation { .. } => panic!("the archive has no roots and saturation yet"),
        }
    };
    Answer { number: (code >> 32) as u32, value: code as u32, out }
}
