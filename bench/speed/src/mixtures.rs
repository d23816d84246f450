//! The mixtures that are timed, and how many terms their sums have.
use gerg::{Component, Mixture};

/// The NIST AGA8 example's fractions.
const EXAMPLE: [f64; 21] = [
    0.77824, 0.02, 0.06, 0.08, 0.03, 0.0015, 0.003, 0.0005, 0.00165, 0.00215, 0.00088, 0.00024, 0.00015, 0.00009, 0.004, 0.005, 0.002, 0.0001, 0.0025,
    0.007, 0.001,
];

/// The example's first components, their fractions scaled to unit sum.
pub fn gas(count: usize) -> Mixture {
    let sum: f64 = EXAMPLE[..count].iter().sum();
    Mixture::new(Component::ALL.into_iter().zip(EXAMPLE).take(count).map(|(component, x)| (component, x / sum)))
}

/// One component, with others of fraction zero beside it up to the count.
pub fn only(component: Component, count: usize) -> Mixture {
    let others = Component::ALL.into_iter().filter(|each| *each != component).take(count - 1);
    Mixture::new(std::iter::once((component, 1.0)).chain(others.map(|each| (each, 0.0))))
}

/// Terms of the residual Helmholtz energy: of the components, and of the pairs that have a departure function.
pub struct Terms {
    components: usize,
    pairs: usize,
}

impl Terms {
    pub fn all(&self) -> usize {
        self.components + self.pairs
    }
}

/// By the layout of the coefficient file, of components with a positive fraction.
pub fn terms(file: &[u8], mixture: &Mixture) -> Terms {
    let own = |i: usize| usize::from(file[41 + 108 * i + 18]) + usize::from(file[41 + 108 * i + 19]);
    let pairs_at = 41 + 21 * 108 + 21 * (0..21).map(own).sum::<usize>();
    let functions_at = pairs_at + 231 * 44;
    let function = |m: usize| usize::from(file[functions_at + 4 * (m - 1) + 2]) + usize::from(file[functions_at + 4 * (m - 1) + 3]);
    let present = |number: usize| {
        let parts = mixture.components().iter().zip(mixture.fractions());
        parts.clone().any(|(component, x)| usize::from(component.number()) == number && *x > 0.0)
    };
    let mut counted = Terms { components: (1..=21).filter(|i| present(*i)).map(|i| own(i - 1)).sum(), pairs: 0 };
    for record in file[pairs_at..functions_at].chunks_exact(44) {
        let (i, j, m) = (usize::from(record[1]), usize::from(record[2]), record[43] as i8);
        if i < j && m > 0 && present(i) && present(j) {
            counted.pairs += function(m as usize);
        }
    }
    counted
}
