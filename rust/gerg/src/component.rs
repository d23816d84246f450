//! The 21 components and mixtures of them.
use std::fmt;
use std::str::FromStr;

macro_rules! components {
    ($($variant:ident = $number:literal $name:literal,)*) => {
        /// A component by its number in the NIST AGA8 code.
        #[derive(Clone, Copy, Debug, PartialEq, Eq, PartialOrd, Ord, Hash)]
        #[repr(u8)]
        pub enum Component { $($variant = $number,)* }

        impl Component {
            /// All, in the order of their numbers.
            pub const ALL: [Component; 21] = [$(Component::$variant,)*];

            pub fn name(self) -> &'static str {
                match self { $(Component::$variant => $name,)* }
            }
        }
    };
}

components! {
    Methane = 1 "methane",
    Nitrogen = 2 "nitrogen",
    CarbonDioxide = 3 "carbon-dioxide",
    Ethane = 4 "ethane",
    Propane = 5 "propane",
    Isobutane = 6 "isobutane",
    NButane = 7 "n-butane",
    Isopentane = 8 "isopentane",
    NPentane = 9 "n-pentane",
    NHexane = 10 "n-hexane",
    NHeptane = 11 "n-heptane",
    NOctane = 12 "n-octane",
    NNonane = 13 "n-nonane",
    NDecane = 14 "n-decane",
    Hydrogen = 15 "hydrogen",
    Oxygen = 16 "oxygen",
    CarbonMonoxide = 17 "carbon-monoxide",
    Water = 18 "water",
    HydrogenSulfide = 19 "hydrogen-sulfide",
    Helium = 20 "helium",
    Argon = 21 "argon",
}

impl Component {
    /// 1 to 21.
    pub fn number(self) -> u8 {
        self as u8
    }
}

impl fmt::Display for Component {
    fn fmt(&self, f: &mut fmt::Formatter<'_>) -> fmt::Result {
        f.write_str(self.name())
    }
}

/// The word that is no component's name.
#[derive(Clone, Debug, PartialEq, Eq)]
pub struct UnknownComponent(pub String);

impl fmt::Display for UnknownComponent {
    fn fmt(&self, f: &mut fmt::Formatter<'_>) -> fmt::Result {
        write!(f, "'{}' is no component", self.0)
    }
}

impl std::error::Error for UnknownComponent {}

impl FromStr for Component {
    type Err = UnknownComponent;

    /// ```
    /// assert_eq!("n-butane".parse(), Ok(gerg::Component::NButane));
    /// assert!("butane".parse::<gerg::Component>().is_err());
    /// ```
    fn from_str(word: &str) -> Result<Self, UnknownComponent> {
        Component::ALL.into_iter().find(|each| each.name() == word).ok_or_else(|| UnknownComponent(word.to_string()))
    }
}

/// Components and their mole fractions, in the caller's order. Nothing is tested or rescaled here: a call refuses a bad mixture.
#[derive(Clone, Debug, PartialEq)]
pub struct Mixture {
    components: Vec<Component>,
    fractions: Vec<f64>,
}

impl Mixture {
    pub fn new(parts: impl IntoIterator<Item = (Component, f64)>) -> Self {
        let (components, fractions) = parts.into_iter().unzip();
        Mixture { components, fractions }
    }

    pub fn components(&self) -> &[Component] {
        &self.components
    }

    pub fn fractions(&self) -> &[f64] {
        &self.fractions
    }

    pub(crate) fn numbers(&self) -> Vec<u8> {
        self.components.iter().map(|each| each.number()).collect()
    }
}
