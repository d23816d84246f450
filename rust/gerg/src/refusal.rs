//! Why a call was refused.
use std::fmt;

macro_rules! causes {
    ($($variant:ident = $number:literal $words:literal,)*) => {
        /// The causes of refusals: document 01's table and what the requests added to it, by number.
        #[derive(Clone, Copy, Debug, PartialEq, Eq, Hash)]
        #[repr(u32)]
        pub enum Cause { $(#[doc = $words] $variant = $number,)* }

        impl Cause {
            /// All, in the order of their numbers.
            pub const ALL: [Cause; 29] = [$(Cause::$variant,)*];

            /// In plain words.
            pub fn words(self) -> &'static str {
                match self { $(Cause::$variant => $words,)* }
            }
        }
    };
}

causes! {
    BadFile = 1 "coefficient file: a record is cut, missing, out of turn, has a count over its limit or another revision, or bytes are left over",
    BadTable = 2 "coefficient table: a number that the equations cannot take",
    BadList = 3 "component list empty, over 21 long, or with a number unknown or repeated",
    BadFractions = 4 "fractions: as many as components (a list's parts too), each finite and not negative, adding up to 1 within 1e-9",
    BadReducingValues = 5 "reducing values of this composition not finite and positive, or a gradient of them not finite",
    DensityNonfinite = 6 "density not finite",
    DensityNotPositive = 7 "density not positive",
    OutOfRange = 8 "temperature not in 200..450 K (extended range: 60..700 K) or density not in 1e-3..30000 mol/m³",
    DerivativeNonfinite = 9 "a derivative of the Helmholtz energy not finite",
    Unstable = 10 "locally unstable state: dp/drho or cv not positive",
    PressureOutOfRange = 11 "pressure of the state not in (0, 35 MPa] (extended range: (0, 70 MPa])",
    PropertyNonfinite = 12 "a property, a fugacity coefficient or a density trial not finite",
    BadSearch = 13 "density search: bracket not rising within 1e-3..30000 mol/m³, limit 0, or tolerance not in (0, 1e-7]",
    BadTarget = 14 "target pressure not in (0, 35 MPa] (extended range: (0, 70 MPa])",
    TrialUnstable = 15 "density search met a density where dp/drho is not positive; choose another bracket",
    NotBracketed = 16 "target pressure not between the pressures at the bracket's ends",
    FinalCheck = 17 "the found state's pressure misses the tolerance",
    Collapsed = 18 "density search: no double left between the ends and the tolerance not met",
    LimitReached = 19 "density search: limit of trials reached",
    NotQualified = 20 "roots and saturation take methane, nitrogen, carbon-dioxide, ethane and propane only",
    RootsOutOfRange = 21 "roots: temperature not in 230..350 K or pressure not in 0.1..10 MPa",
    RootNotConverged = 22 "a root's pressure did not converge",
    NoRoot = 23 "no exterior root",
    OutTooShort = 24 "memory lent for the answer too short",
    BadSaturation = 25 "saturation: one positive fraction and finite, rising ends are needed",
    SaturationExhausted = 26 "saturation: limit of trials reached, or no double left between the ends",
    ZeroSeed = 27 "states: the seed is zero",
    BadRecord = 28 "chromatograph's list: a record of another kind than 0x10, cut, or with a digit above 9",
    BadTotal = 29 "chromatograph's list: the parts do not total 1,000,000",
}

impl Cause {
    fn of_number(number: u32) -> Option<Cause> {
        Cause::ALL.into_iter().find(|each| *each as u32 == number)
    }
}

/// A refusal: its cause, and the value that goes with the cause (an offset, a place from 0, a count), else 0.
#[derive(Clone, Copy, Debug, PartialEq, Eq)]
pub struct Refusal {
    pub cause: Cause,
    pub value: u32,
}

impl Refusal {
    /// Number 0 is an accepted call, answered by its value.
    pub(crate) fn answered(answer: u64) -> Result<u32, Refusal> {
        let (number, value) = ((answer >> 32) as u32, answer as u32);
        if number == 0 {
            return Ok(value);
        }
        let cause = Cause::of_number(number).expect("the archive answers one of the table's numbers");
        Err(Refusal { cause, value })
    }

    /// The cause's number.
    pub fn number(&self) -> u32 {
        self.cause as u32
    }

    /// What the value says, where the cause has one.
    pub fn detail(&self) -> Option<String> {
        let value = self.value;
        match self.cause {
            Cause::BadFile | Cause::BadRecord => Some(format!("at byte {value}")),
            Cause::BadTable => {
                let tables = ["bt", "bv", "gt", "gv", "f", "Tc or mass", "bt or bv not positive", "mNumb"];
                Some(tables.get((value as usize).wrapping_sub(1)).map_or(format!("{value}"), |table| format!("{value}, {table}")))
            }
            Cause::BadList => Some(format!("at place {value} from 0")),
            Cause::BadFractions => Some(format!("{value}, the first bad place from 0, or the list's length where length or sum is wrong")),
            Cause::Collapsed | Cause::LimitReached | Cause::SaturationExhausted => Some(format!("after {value} trials")),
            Cause::OutTooShort => Some(format!("{value} doubles, places or bytes needed")),
            _ => None,
        }
    }
}

impl fmt::Display for Refusal {
    fn fmt(&self, f: &mut fmt::Formatter<'_>) -> fmt::Result {
        write!(f, "refused, number {}: {}", self.number(), self.cause.words())?;
        match self.detail() {
            Some(detail) => write!(f, " ({detail})"),
            None => Ok(()),
        }
    }
}

impl std::error::Error for Refusal {}
