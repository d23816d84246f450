//! The archive's exports, as include/gerg.h has them, behind functions that take slices; a call in two ranges is one function.
use crate::{Mixture, Range, Search};

/// Declares exports by what each takes after the three slices that all start with; those that take the same stand before one list.
macro_rules! exports {
    ($(fn $($name:ident),+: $arguments:tt;)*) => { unsafe extern "C" { $($(export! { $name $arguments })+)* } };
}
macro_rules! export {
    ($name:ident ($($argument:ident: $kind:ty),*)) => {
        pub fn $name(
            file: *const u8, file_len: usize, list: *const u8, list_len: usize, fractions: *const f64, fractions_len: usize,
            $($argument: $kind),*
        ) -> u64;
    };
}

mod archive {
    exports! {
        fn gerg_properties, gerg_properties_extended: (t: f64, rho: f64, out: *mut f64);
        fn gerg_fugacity, gerg_fugacity_extended: (t: f64, rho: f64, out: *mut f64, out_len: usize);
        fn gerg_density, gerg_density_extended: (t: f64, target: f64, lo: f64, hi: f64, limit: u64, tolerance: f64, out: *mut f64);
        fn gerg_outer_roots: (t: f64, p: f64, out: *mut f64, out_len: usize);
        fn gerg_pure_saturation: (p: f64, lo: f64, hi: f64, limit: u64, out: *mut f64);
        fn gerg_count_refusals: (seed: u64, first: u32, states: u32, out: *mut u64);
    }

    // Those that start otherwise.
    unsafe extern "C" {
        pub fn gerg_state_at(seed: u64, n: u32, out: *mut f64) -> u64;
        pub fn gerg_read_list(
            bytes: *const u8, bytes_len: usize, list: *mut u8, list_len: usize, parts: *mut u32, parts_len: usize, fractions: *mut f64, fractions_len: usize,
        ) -> u64;
        pub fn gerg_write_list(list: *const u8, list_len: usize, parts: *const u32, parts_len: usize, out: *mut u8, out_len: usize) -> u64;
    }
}

/// An export in the range that is asked for.
macro_rules! ranged {
    ($range:expr, $normal:ident, $extended:ident) => {
        match $range {
            Range::Normal => archive::$normal,
            Range::Extended => archive::$extended,
        }
    };
}

/// Calls an export with the three slices that each starts with, then its own arguments.
macro_rules! call {
    ($export:expr, $file:expr, $mixture:expr, $($argument:expr),*) => {{
        let (list, fractions) = ($mixture.numbers(), $mixture.fractions());
        // SAFETY: every pointer goes with the length of its slice, and `out` has the places that the export writes.
        unsafe {
            $export($file.as_ptr(), $file.len(), list.as_ptr(), list.len(), fractions.as_ptr(), fractions.len(), $($argument),*)
        }
    }};
}

pub fn properties(file: &[u8], mixture: &Mixture, range: Range, t: f64, rho: f64, out: &mut [f64; 24]) -> u64 {
    call!(ranged!(range, gerg_properties, gerg_properties_extended), file, mixture, t, rho, out.as_mut_ptr())
}

pub fn fugacity(file: &[u8], mixture: &Mixture, range: Range, t: f64, rho: f64, out: &mut [f64]) -> u64 {
    call!(ranged!(range, gerg_fugacity, gerg_fugacity_extended), file, mixture, t, rho, out.as_mut_ptr(), out.len())
}

pub fn density(file: &[u8], mixture: &Mixture, range: Range, t: f64, target: f64, search: &Search, out: &mut [f64; 30]) -> u64 {
    let export = ranged!(range, gerg_density, gerg_density_extended);
    call!(export, file, mixture, t, target, search.lo, search.hi, search.limit, search.tolerance, out.as_mut_ptr())
}

pub fn outer_roots(file: &[u8], mixture: &Mixture, t: f64, p: f64, out: &mut [f64]) -> u64 {
    call!(archive::gerg_outer_roots, file, mixture, t, p, out.as_mut_ptr(), out.len())
}

pub fn pure_saturation(file: &[u8], mixture: &Mixture, p: f64, [lo, hi]: [f64; 2], limit: u64, out: &mut [f64; 9]) -> u64 {
    call!(archive::gerg_pure_saturation, file, mixture, p, lo, hi, limit, out.as_mut_ptr())
}

pub fn count_refusals(file: &[u8], mixture: &Mixture, seed: u64, first: u32, states: u32, out: &mut [u64; 38]) -> u64 {
    call!(archive::gerg_count_refusals, file, mixture, seed, first, states, out.as_mut_ptr())
}

pub fn state_at(seed: u64, n: u32, out: &mut [f64; 2]) -> u64 {
    // SAFETY: `out` has the places that the export writes.
    unsafe { archive::gerg_state_at(seed, n, out.as_mut_ptr()) }
}

pub fn read_list(bytes: &[u8], list: &mut [u8], parts: &mut [u32], fractions: &mut [f64]) -> u64 {
    let (places, room) = (fractions.as_mut_ptr(), fractions.len());
    // SAFETY: every pointer goes with the length of its slice.
    unsafe { archive::gerg_read_list(bytes.as_ptr(), bytes.len(), list.as_mut_ptr(), list.len(), parts.as_mut_ptr(), parts.len(), places, room) }
}

pub fn write_list(list: &[u8], parts: &[u32], out: &mut [u8]) -> u64 {
    // SAFETY: every pointer goes with the length of its slice.
    unsafe { archive::gerg_write_list(list.as_ptr(), list.len(), parts.as_ptr(), parts.len(), out.as_mut_ptr(), out.len()) }
}
