//! The ends of the range that this program compares properties, fugacity and density in. Roots and saturation have ends of their own.
pub struct Range {
    pub coldest: f64,
    pub hottest: f64,
    pub highest_pressure: f64,
}

/// The Rust's own.
pub const NORMAL: Range = Range { coldest: 200.0, hottest: 450.0, highest_pressure: 35e6 };

/// Whether this program is the one for the extended range.
pub const EXTENDED: bool = cfg!(feature = "extended");

pub const RANGE: Range = if EXTENDED { Range { coldest: 60.0, hottest: 700.0, highest_pressure: 70e6 } } else { NORMAL };
