//! The elementary functions of the proved archive as methods of f64, under the names that `substitute.py` puts in place of std's.
//! With the feature `platform` they are std's own: for measuring speed.
pub trait Elementary {
    fn elementary_exp(self) -> f64;
    fn elementary_ln(self) -> f64;
    fn elementary_sqrt(self) -> f64;
    fn elementary_powf(self, exponent: f64) -> f64;
    fn elementary_powi(self, exponent: i32) -> f64;
    fn elementary_sinh(self) -> f64;
    fn elementary_cosh(self) -> f64;
    fn elementary_tanh(self) -> f64;
}

#[cfg(not(feature = "platform"))]
mod archive {
    unsafe extern "C" {
        pub safe fn elementary_exp(x: f64) -> f64;
        pub safe fn elementary_ln(x: f64) -> f64;
        pub safe fn elementary_sqrt(x: f64) -> f64;
        pub safe fn elementary_powf(x: f64, t: f64) -> f64;
        pub safe fn elementary_powi(x: f64, n: i32) -> f64;
        pub safe fn elementary_sinh(x: f64) -> f64;
        pub safe fn elementary_cosh(x: f64) -> f64;
        pub safe fn elementary_tanh(x: f64) -> f64;
    }
}

#[cfg(feature = "platform")]
mod archive {
    pub fn elementary_exp(x: f64) -> f64 { x.exp() }
    pub fn elementary_ln(x: f64) -> f64 { x.ln() }
    pub fn elementary_sqrt(x: f64) -> f64 { x.sqrt() }
    pub fn elementary_powf(x: f64, t: f64) -> f64 { x.powf(t) }
    pub fn elementary_powi(x: f64, n: i32) -> f64 { x.powi(n) }
    pub fn elementary_sinh(x: f64) -> f64 { x.sinh() }
    pub fn elementary_cosh(x: f64) -> f64 { x.cosh() }
    pub fn elementary_tanh(x: f64) -> f64 { x.tanh() }
}

impl Elementary for f64 {
    fn elementary_exp(self) -> f64 { archive::elementary_exp(self) }
    fn elementary_ln(self) -> f64 { archive::elementary_ln(self) }
    fn elementary_sqrt(self) -> f64 { archive::elementary_sqrt(self) }
    fn elementary_powf(self, exponent: f64) -> f64 { archive::elementary_powf(self, exponent) }
    fn elementary_powi(self, exponent: i32) -> f64 { archive::elementary_powi(self, exponent) }
    fn elementary_sinh(self) -> f64 { archive::elementary_sinh(self) }
    fn elementary_cosh(self) -> f64 { archive::elementary_cosh(self) }
    fn elementary_tanh(self) -> f64 { archive::elementary_tanh(self) }
}
