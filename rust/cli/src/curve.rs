//! `gerg curve`: density and speed of sound over pressure at one temperature, as CSV and as a picture.
//!
//! The density at a pressure is the lightest exterior root where the components, temperature and pressure allow roots, else the lightest
//! density found by the search (lightest.rs). The column `by` says which. No phase is claimed: where a point has several roots, the lightest
//! need not be the stable one, and where the vapour's branch has ended, the lightest is a liquid's. A refused point has its number and no values.
use crate::arguments::Arguments;
use crate::format::exact;
use crate::input::{Input, write};
use crate::progress::Progress;
use crate::report::named;
use crate::svg::{Panel, picture};
use crate::{Fault, lightest};
use gerg::{Refusal, State};

struct Point {
    p: f64,
    /// How many exterior roots there were, where the density is one of them.
    roots: Option<usize>,
    state: Result<State, Refusal>,
}

fn point(input: &Input, t: f64, p: f64) -> Point {
    let (file, mixture) = (&input.file, &input.mixture);
    let by_root = mixture.components().iter().all(|each| each.has_roots()) && (230.0..=350.0).contains(&t) && (1e5..=1e7).contains(&p);
    if by_root {
        let roots = gerg::outer_roots(file, mixture, t, p);
        let count = roots.as_ref().map_or(0, Vec::len);
        let state = roots.and_then(|roots| gerg::properties_in(file, mixture, input.range, t, roots[0].molar_density));
        return Point { p, roots: Some(count), state };
    }
    let state = lightest::density(input, t, p, lightest::LIMIT, lightest::TOLERANCE).map(|found| found.state);
    Point { p, roots: None, state }
}

fn points(input: &Input, t: f64, pressures: &[f64]) -> Vec<Point> {
    let mut progress = Progress::new("curve", "points", pressures.len() as u64);
    let mut points = Vec::new();
    for p in pressures {
        points.push(point(input, t, *p));
        progress.made(1);
    }
    points
}

fn csv(points: &[Point]) -> String {
    let mut out = String::from("pressure_pa,molar_density_mol_m3,mass_density_kg_m3,compressibility,speed_of_sound_m_s,by,roots,refusal\n");
    for Point { p, roots, state } in points {
        let by = roots.map_or("search,".to_string(), |count| format!("root,{count}"));
        out += &match state {
            Ok(s) => {
                let [rho, mass, z, sound] = [s.molar_density, s.mass_density, s.compressibility, s.speed_of_sound].map(exact);
                format!("{},{rho},{mass},{z},{sound},{by},\n", exact(*p))
            }
            Err(refusal) => format!("{},,,,,{by},{}\n", exact(*p), refusal.number()),
        };
    }
    out
}

/// Stretches of neighbouring accepted points. A density that more than doubles from one point to the next starts another: the only root left is
/// then on the other branch, and a line across would be no state.
fn stretches(points: &[Point], value: fn(&State) -> f64) -> Vec<Vec<(f64, f64)>> {
    let mut all: Vec<Vec<(f64, f64)>> = Vec::new();
    let mut last: Option<(f64, f64)> = None;
    for point in points {
        let Ok(state) = &point.state else {
            last = None;
            continue;
        };
        let follows = last.is_some_and(|(p, rho)| state.molar_density / rho <= 2.0 * (point.p / p).max(1.0));
        if !follows {
            all.push(Vec::new());
        }
        all.last_mut().expect("a stretch").push((point.p / 1e6, value(state)));
        last = Some((point.p, state.molar_density));
    }
    all
}

fn svg(input: &Input, t: f64, ends: [f64; 2], points: &[Point]) -> String {
    let lines = |value| stretches(points, value);
    let panels = [
        Panel { label: "density, kg/m³", color: "#1f5fa8", lines: lines(|s| s.mass_density) },
        Panel { label: "speed of sound, m/s", color: "#b5451c", lines: lines(|s| s.speed_of_sound) },
    ];
    let title = format!("GERG-2008 at {} K", exact(t));
    let small = [Some(input.described()), Some(format!("coefficients {}", input.path)), input.other_range()];
    picture(&title, &small.into_iter().flatten().collect::<Vec<_>>().join("; "), ends.map(|p| p / 1e6), &panels)
}

fn ends(arguments: &Arguments, highest: f64) -> Result<([f64; 2], usize), Fault> {
    let [from, to] = [arguments.number("--from")?.unwrap_or(1e5), arguments.number("--to")?.unwrap_or(1e7)];
    let count = arguments.whole::<u64>("--points", Some(100))?;
    if !(from > 0.0 && from < to && to <= highest) {
        return Err(arguments.fault(format!("--from {} --to {}: pressures must rise within (0, {}e6]", exact(from), exact(to), highest / 1e6)));
    }
    if !(2..=100_000).contains(&count) {
        return Err(arguments.fault(format!("--points: {count} is not in 2..100000")));
    }
    Ok(([from, to], count as usize))
}

/// What was computed and how, and what a reader of the picture should know.
fn summary(input: &Input, isotherm: String, points: &[Point]) -> String {
    let by_root = points.iter().filter(|point| point.roots.is_some()).count();
    let several = points.iter().filter(|point| point.roots.is_some_and(|count| count > 1)).count();
    let refusals: Vec<String> = points.iter().filter_map(|point| point.state.err()).map(|refusal| refusal.number().to_string()).collect();
    let how = format!("by the lightest exterior root at {by_root} points, by the search upward at {}", points.len() - by_root);
    let mut lines = vec![("coefficients", input.coefficients()), ("mixture", input.described())];
    lines.extend(input.list_line().map(|line| (line.name, line.text)));
    lines.push(("isotherm", isotherm));
    lines.extend(input.range_line().map(|line| (line.name, line.text)));
    lines.push(("density", how));
    if several > 0 {
        lines.push(("roots", format!("several at {several} points: the lightest need not be the stable state")));
    }
    if !refusals.is_empty() {
        let numbers = Vec::from_iter(std::collections::BTreeSet::from_iter(refusals.iter().map(String::as_str))).join(", ");
        let left = "left out of the picture, without values in the CSV";
        lines.push(("refused", format!("{} of {} points (number {numbers}), {left}", refusals.len(), points.len())));
    }
    lines.iter().map(|(name, text)| named(name, 12, text)).collect()
}

pub fn run(arguments: &Arguments) -> Result<String, Fault> {
    let input = Input::read(arguments)?;
    let t = arguments.needed("--t")?;
    let ([from, to], count) = ends(arguments, input.range.highest_pressure())?;
    let last = count - 1;
    let pressure = |k: usize| if k == last { to } else { from + (to - from) * (k as f64 / last as f64) };
    let pressures: Vec<f64> = (0..count).map(pressure).collect();
    let points = points(&input, t, &pressures);
    if let (true, Err(refusal)) = (points.iter().all(|point| point.state.is_err()), points[0].state) {
        return Err(input.refused(refusal, &format!("T = {} K, p = {} Pa, and every other point", exact(t), exact(from)), arguments));
    }
    let name = arguments.text("--out").unwrap_or("curve");
    let (csv_path, svg_path) = (format!("{name}.csv"), format!("{name}.svg"));
    write(&csv_path, csv(&points))?;
    write(&svg_path, svg(&input, t, [from, to], &points))?;
    let isotherm = format!("T = {} K, {count} pressures from {} to {} Pa", exact(t), exact(from), exact(to));
    Ok(summary(&input, isotherm, &points) + &named("written", 12, &format!("{csv_path}, {svg_path}")))
}
