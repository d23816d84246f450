//! Compares the proved library with the Rust over the same elementary functions, every number's bits and every refusal.
//!
//!     GERG_FILE=FILE compare SEED KIND=COUNT ..      counts what was compared; exit status 1 where an answer differs
//!     GERG_FILE=FILE compare --answers SEED KIND=COUNT ..     prints each call with the Rust's answer, a line each, for the stored list
//!     GERG_FILE=FILE compare --store SEED roots|saturation    prints a stored list with its kinds
//!
//! Built with the feature `extended` it does so in the extended range, which roots and saturation do not have.
mod archive;
mod case;
mod equilibrium;
mod extended;
mod generate;
mod kind;
mod range;
mod upstream;
use case::{Answer, Call, Case};
use generate::Random;
use range::{EXTENDED, RANGE};
use std::collections::BTreeMap;
use std::process::ExitCode;

const KINDS: &[&str] = if EXTENDED { &["properties", "fugacity", "density", "edges"] } else { &["properties", "fugacity", "density", "roots", "saturation", "edges"] };

#[derive(Default)]
struct Counts {
    compared: u64,
    unexplained: u64,
    recorded: BTreeMap<&'static str, u64>,
    by_number: BTreeMap<u32, u64>,
}

/// The differences from the Rust that docs/DIFFERENCES.md records: it has no such refusal, and the expected answer is a reading of document 01.
fn recorded(case: &Case, expected: &Answer) -> Option<&'static str> {
    match (expected.number, &case.call) {
        (3, _) => Some("list"),
        (4, _) => Some("fractions"),
        (14, Call::Density { target, .. }) if target.is_nan() || *target <= RANGE.highest_pressure => Some("target"),
        (24, _) => Some("room"),
        (25, _) => Some("ends"),
        _ => None,
    }
}

/// As many calls of a kind as were asked for; all edges, however many were.
fn calls(seed: u64, kind: &str, count: u64) -> Box<dyn Iterator<Item = Case>> {
    if kind == "edges" {
        let edges = if EXTENDED { extended::edges() } else { equilibrium::edges() };
        return Box::new(edges.into_iter());
    }
    let (mut random, kind) = (Random::new(seed ^ kind.bytes().fold(0, |a, b| a * 31 + u64::from(b))), kind.to_string());
    Box::new((0..count).map(move |_| generate::case(&mut random, &kind)))
}

fn compare(file: &[u8], seed: u64, kind: &str, count: u64) -> Counts {
    let mut counts = Counts::default();
    for case in calls(seed, kind, count) {
        let (ours, theirs) = (archive::answer(file, &case), upstream::answer(&case));
        counts.compared += 1;
        *counts.by_number.entry(theirs.number).or_default() += 1;
        if ours != theirs {
            counts.unexplained += 1;
            if counts.unexplained <= 5 {
                println!("DIFFERS {case}\n  library {ours}\n  Rust    {theirs}");
            }
        } else if let Some(difference) = recorded(&case, &theirs) {
            *counts.recorded.entry(difference).or_default() += 1;
        }
    }
    counts
}

fn list<K: std::fmt::Display>(counts: &BTreeMap<K, u64>) -> String {
    counts.iter().map(|(name, n)| format!(" {name}:{n}")).collect()
}

fn answers(seed: u64, kind: &str, count: u64) {
    let mut random = Random::new(seed);
    let cases: Vec<Case> = (0..count).map(|_| generate::case(&mut random, kind)).collect();
    let answers: Vec<Answer> = cases.iter().map(upstream::answer).collect();
    if EXTENDED {
        kind::extended_head(seed, cases.iter().zip(&answers));
    }
    for (case, answer) in cases.iter().zip(&answers) {
        println!("{case} = {answer}");
    }
}

fn main() -> ExitCode {
    let mut words: Vec<String> = std::env::args().skip(1).collect();
    let mode = if words.first().is_some_and(|word| word.starts_with("--")) { words.remove(0) } else { String::new() };
    let path = std::env::var("GERG_FILE").expect("GERG_FILE");
    let file = std::fs::read(&path).expect("the coefficient file");
    let seed: u64 = words.first().and_then(|word| word.parse().ok()).expect("a seed");
    let mut unexplained = 0;
    for word in &words[1..] {
        let (kind, count) = word.split_once('=').unwrap_or((word, ""));
        assert!(KINDS.contains(&kind), "{kind}: one of {KINDS:?}");
        if mode == "--store" {
            kind::store(seed, kind);
            continue;
        }
        let count = count.parse().expect("KIND=COUNT");
        if mode == "--answers" {
            answers(seed, kind, count);
            continue;
        }
        let counts = compare(&file, seed, kind, count);
        unexplained += counts.unexplained;
        let equal = counts.compared - counts.unexplained - counts.recorded.values().sum::<u64>();
        println!("{path} seed {seed} {kind}: compared {}, equal {equal}, recorded{}, unexplained {}; by refusal number{}", counts.compared, list(&counts.recorded), counts.unexplained, list(&counts.by_number));
    }
    if unexplained == 0 { ExitCode::SUCCESS } else { ExitCode::FAILURE }
}
