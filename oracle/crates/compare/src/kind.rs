//! The kinds of the stored lists, and how many of each a list has.
use crate::case::{Answer, Call, Case};
use crate::extended::features;
use crate::generate::{self, Random};
use crate::upstream;
use std::collections::BTreeMap;

/// 200 root calls. `two-crossings`: one root kept and one dropped; `three-crossings`: two kept, and the one between them dropped; `on-a-grid-point`: a
/// root found in both cells beside that point, and kept once.
const ROOTS: [(&str, usize); 11] = [
    ("one-root", 40), ("on-a-grid-point", 10), ("two-roots", 30), ("two-crossings", 20), ("three-crossings", 50), ("none", 20), ("row-3", 2), ("row-4", 2), ("row-20", 6),
    ("row-21", 10), ("row-24", 10),
];
/// 60 saturations. `limit` and `middle-on-an-end` are the two ways to row 26.
const SATURATION: [(&str, usize); 10] = [
    ("found", 16), ("found-at-an-end", 8), ("not-enclosed", 8), ("limit", 7), ("middle-on-an-end", 6), ("row-3", 1), ("row-4", 1), ("row-20", 2),
    ("row-21", 5), ("row-25", 6),
];

fn kind(case: &Case, answer: &Answer) -> String {
    let named = match (&case.call, answer.number, answer.value) {
        (Call::Roots { t, p }, 0, roots) => match (roots, upstream::crossings(&case.mixture, *t, *p)) {
            (_, (_, true)) => "on-a-grid-point",
            (1, (1, _)) => "one-root",
            (2, (2, _)) => "two-roots",
            (1, (2, _)) => "two-crossings",
            (2, (3, _)) => "three-crossings",
            _ => "other",
        },
        (Call::Roots { .. }, 23, _) => "none",
        (Call::Saturation { .. }, 0, 0) => "not-enclosed",
        (Call::Saturation { .. }, 0, _) if answer.out[8] == 0.0 => "found-at-an-end",
        (Call::Saturation { .. }, 0, _) => "found",
        (Call::Saturation { limit, .. }, 26, trials) if u64::from(trials) == *limit => "limit",
        (Call::Saturation { .. }, 26, _) => "middle-on-an-end",
        (_, number, _) => return format!("row-{number}"),
    };
    named.into()
}

fn head(text: &str, seed: u64) {
    println!("# Made by tests/replay/make: the Rust of oracle/upstream{text} over this library's elementary functions, data/gerg-2008.bin, seed {seed}.");
}

/// A list of the extended range has no kinds but features, of which a line can have several.
pub fn extended_head<'a>(seed: u64, lines: impl Iterator<Item = (&'a Case, &'a Answer)>) {
    let mut counts: BTreeMap<&str, usize> = BTreeMap::new();
    for name in lines.flat_map(|(case, answer)| features(case, answer)) {
        *counts.entry(name).or_default() += 1;
    }
    head(" with the ends of the extended range", seed);
    for (name, count) in counts {
        println!("# {name} {count}");
    }
}

/// Prints a stored list: its maker, how many of each kind, then a line a call with its kind and the Rust's answer. Calls are drawn from the seed until
/// every kind has its number; those of a kind that is full are left out.
pub fn store(seed: u64, of: &str) {
    let kinds: &[(&str, usize)] = if of == "roots" { &ROOTS } else { &SATURATION };
    let mut wanted: BTreeMap<&str, usize> = kinds.iter().copied().collect();
    head("", seed);
    for (name, count) in kinds {
        println!("# {name} {count}");
    }
    let mut random = Random::new(seed);
    while wanted.values().any(|left| *left > 0) {
        let case = generate::case(&mut random, of);
        let answer = upstream::answer(&case);
        let name = kind(&case, &answer);
        if let Some(left) = wanted.get_mut(name.as_str()).filter(|left| **left > 0) {
            *left -= 1;
            println!("[{name}] {case} = {answer}");
        }
    }
}
