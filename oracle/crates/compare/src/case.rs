//! One call and its answer, as text lines too: `request` words, then what came back, doubles as bit patterns in hexadecimal.
use crate::range::EXTENDED;
use std::fmt;

#[derive(Clone, Debug)]
pub struct Mixture {
    pub list: Vec<u8>,
    pub fractions: Vec<f64>,
}

#[derive(Clone, Debug)]
pub enum Call {
    Properties { t: f64, rho: f64 },
    Fugacity { t: f64, rho: f64 },
    Density { t: f64, target: f64, lo: f64, hi: f64, limit: u64, tolerance: f64 },
    Roots { t: f64, p: f64 },
    Saturation { p: f64, lo: f64, hi: f64, limit: u64 },
}

#[derive(Clone, Debug)]
pub struct Case {
    pub mixture: Mixture,
    pub call: Call,
    /// Places of the lent answer.
    pub room: usize,
}

/// Number and value of document 01's table (number 0: accepted), and the lent answer afterwards.
#[derive(Clone, Debug)]
pub struct Answer {
    pub number: u32,
    pub value: u32,
    pub out: Vec<f64>,
}

/// What the lent memory holds before each call: place k has this pattern plus k.
pub const LENT: u64 = 0x4142_4344_0000_0000;

pub fn lent(room: usize) -> Vec<f64> {
    (0..room).map(|k| f64::from_bits(LENT + k as u64)).collect()
}

/// Equal bits, but one NaN is as good as another: the definitions have one NaN only.
pub fn same(a: f64, b: f64) -> bool {
    a.to_bits() == b.to_bits() || (a.is_nan() && b.is_nan())
}

impl PartialEq for Answer {
    fn eq(&self, other: &Self) -> bool {
        let outs = self.out.len() == other.out.len() && self.out.iter().zip(&other.out).all(|(a, b)| same(*a, *b));
        self.number == other.number && self.value == other.value && outs
    }
}

struct Bits(f64);
impl fmt::Display for Bits {
    fn fmt(&self, f: &mut fmt::Formatter<'_>) -> fmt::Result {
        write!(f, "{:016x}", self.0.to_bits())
    }
}

fn words(values: &[f64]) -> String {
    values.iter().map(|v| format!(" {}", Bits(*v))).collect()
}

impl fmt::Display for Case {
    fn fmt(&self, f: &mut fmt::Formatter<'_>) -> fmt::Result {
        let (name, numbers, limit) = match self.call {
            Call::Properties { t, rho } => ("properties", vec![t, rho], 0),
            Call::Fugacity { t, rho } => ("fugacity", vec![t, rho], 0),
            Call::Density { t, target, lo, hi, limit, tolerance } => ("density", vec![t, target, lo, hi, tolerance], limit),
            Call::Roots { t, p } => ("roots", vec![t, p], 0),
            Call::Saturation { p, lo, hi, limit } => ("saturation", vec![p, lo, hi], limit),
        };
        let range = if EXTENDED { "-extended" } else { "" };
        write!(f, "{name}{range} {}", self.mixture.list.len())?;
        for number in &self.mixture.list {
            write!(f, " {number}")?;
        }
        write!(f, " {}{}", self.mixture.fractions.len(), words(&self.mixture.fractions))?;
        write!(f, " {}{} {limit} {}", numbers.len(), words(&numbers), self.room)
    }
}

impl fmt::Display for Answer {
    /// The places that still hold what was lent are not written out: number, value, how many places were written, these.
    fn fmt(&self, f: &mut fmt::Formatter<'_>) -> fmt::Result {
        let written = (0..self.out.len()).rev().find(|k| self.out[*k].to_bits() != LENT + *k as u64).map_or(0, |k| k + 1);
        write!(f, "{} {} {written}{}", self.number, self.value, words(&self.out[..written]))
    }
}
