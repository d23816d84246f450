//! The commands but for `curve`, `list`, `state` and `states`.
use crate::arguments::{Arguments, USAGE};
use crate::format::{decimal, exact, quoted};
use crate::input::{Input, read, refusal_fault};
use crate::lightest::{LIMIT, TOLERANCE};
use crate::report::{Group, Heading, Report, Row, count, heading, row};
use crate::{Fault, curve, lightest, lists, states};
use gerg::{Component, Density, Mixture, Saturation, Search, State};

const SATURATION_ENDS: [f64; 2] = [230.0, 350.0];
const OUTPUT: [&str; 3] = ["--file", "--json", "--bits"];

pub fn run(words: &[String]) -> Result<String, Fault> {
    let Some((command, rest)) = words.split_first() else {
        return Err(Fault::usage("no command; see gerg --help"));
    };
    let parse = |own: &[&str]| Arguments::parse(command, rest, &[own, &OUTPUT].concat());
    match command.as_str() {
        "--help" | "-h" | "help" => Ok(USAGE.to_string()),
        "components" => Ok(components()),
        "check" => check(&parse(&[])?),
        "properties" => properties(&parse(&["--mix", "--list", "--t", "--rho", "--p", "--range", "--all"])?),
        "fugacity" => fugacity(&parse(&["--mix", "--list", "--t", "--rho", "--p", "--range"])?),
        "density" => density(&parse(&["--mix", "--list", "--t", "--p", "--lo", "--hi", "--limit", "--tolerance", "--range", "--all"])?),
        "roots" => roots(&parse(&["--mix", "--list", "--t", "--p"])?),
        "saturation" => saturation(&parse(&["--mix", "--list", "--p", "--lo", "--hi", "--limit"])?),
        "curve" => curve::run(&Arguments::parse(command, rest, &["--mix", "--list", "--t", "--from", "--to", "--points", "--range", "--out", "--file"])?),
        "list" => lists::run(&Arguments::parse(command, rest, &["--mix", "--list", "--out", "--json", "--bits"])?),
        "state" => states::one(&Arguments::parse(command, rest, &["--seed", "--n", "--json", "--bits"])?),
        "states" => states::run(&Arguments::parse(command, rest, &["--mix", "--list", "--seed", "--states", "--first", "--jobs", "--file", "--json"])?),
        other => Err(Fault::usage(format!("'{other}' is no command; see gerg --help"))),
    }
}

fn components() -> String {
    Component::ALL.iter().map(|each| format!("{:2} {}\n", each.number(), each.name())).collect()
}

fn written(arguments: &Arguments, report: Report) -> Result<String, Fault> {
    let as_bits = arguments.has("--bits");
    Ok(if arguments.has("--json") { report.json(as_bits) } else { report.table(as_bits) })
}

fn check(arguments: &Arguments) -> Result<String, Fault> {
    let [path] = arguments.free.as_slice() else {
        return Err(arguments.fault("one file is needed: gerg check FILE"));
    };
    let file = read(path)?;
    gerg::check(&file).map_err(|refusal| refusal_fault(refusal, &format!("{path}, {}", refusal.detail().unwrap_or_default()), arguments))?;
    let bytes = file.len();
    Ok(if arguments.has("--json") {
        format!("{{\"file\":{},\"accepted\":true,\"bytes\":{bytes}}}\n", quoted(path))
    } else {
        format!("{path}: accepted, {bytes} bytes\n")
    })
}

fn state_rows(s: &State) -> Vec<Row> {
    vec![
        row("temperature", "temperature", s.temperature, "K"),
        row("pressure", "pressure", s.pressure, "Pa"),
        row("molar_density", "molar density", s.molar_density, "mol/m³"),
        row("mass_density", "mass density", s.mass_density, "kg/m³"),
        row("compressibility", "compressibility factor Z", s.compressibility, ""),
        row("speed_of_sound", "speed of sound", s.speed_of_sound, "m/s"),
        row("cv", "heat capacity cv", s.cv, "J/(mol K)"),
        row("cp", "heat capacity cp", s.cp, "J/(mol K)"),
        row("internal_energy", "internal energy", s.internal_energy, "J/mol"),
        row("enthalpy", "enthalpy", s.enthalpy, "J/mol"),
        row("entropy", "entropy", s.entropy, "J/(mol K)"),
        row("helmholtz_energy", "Helmholtz energy", s.helmholtz_energy, "J/mol"),
        row("gibbs_energy", "Gibbs energy", s.gibbs_energy, "J/mol"),
        row("dp_drho", "dp/drho at constant T", s.dp_drho, "Pa m³/mol"),
        row("dp_dt", "dp/dT at constant density", s.dp_dt, "Pa/K"),
    ]
}

fn derivative_rows(s: &State) -> Vec<Row> {
    let d = &s.derivatives;
    let named = [
        ("ar", d.ar), ("ar_d", d.ar_d), ("ar_dd", d.ar_dd), ("ar_t", d.ar_t), ("ar_tt", d.ar_tt), ("ar_dt", d.ar_dt),
        ("a0", d.a0), ("a0_t", d.a0_t), ("a0_tt", d.a0_tt),
    ];
    named.map(|(name, v)| row(name, name, v, "")).into()
}

/// All 24 numbers for machines and comparing, for a person the derivatives only on demand.
fn state_groups(arguments: &Arguments, s: &State) -> Vec<Group> {
    let mut groups = vec![Group { key: "state", title: "properties".into(), rows: state_rows(s), many: false }];
    if ["--json", "--bits", "--all"].iter().any(|flag| arguments.has(flag)) {
        let title = "derivatives of the Helmholtz energy over RT".into();
        groups.push(Group { key: "derivatives", title, rows: derivative_rows(s), many: false });
    }
    groups
}

fn search_rows(found: &Density) -> Vec<Row> {
    vec![
        row("residual", "scaled residual (p - target)/target", found.residual, ""),
        count("trials", "interior trials", found.trials),
        row("first_lo", "first bracket, low end", found.first_bracket[0], "mol/m³"),
        row("first_hi", "first bracket, high end", found.first_bracket[1], "mol/m³"),
        row("last_lo", "last bracket, low end", found.last_bracket[0], "mol/m³"),
        row("last_hi", "last bracket, high end", found.last_bracket[1], "mol/m³"),
    ]
}

/// How a bracket was had that was not given.
fn upward([lo, hi]: [f64; 2]) -> String {
    let how = format!("upward from a quarter of the ideal gas's density in steps of {} (no bracket given)", lightest::STEP);
    format!("bracket {} .. {} mol/m³, {how}", decimal(lo), decimal(hi))
}

/// The state at --t and --rho, or at --t and --p; with how its density was had.
fn state_at(arguments: &Arguments, input: &Input) -> Result<(State, String, Option<String>), Fault> {
    let t = arguments.needed("--t")?;
    match (arguments.number("--rho")?, arguments.number("--p")?) {
        (Some(rho), None) => {
            let asked = format!("T = {} K, density {} mol/m³", exact(t), exact(rho));
            let state = gerg::properties_in(&input.file, &input.mixture, input.range, t, rho).map_err(|r| input.refused(r, &asked, arguments))?;
            Ok((state, asked, None))
        }
        (None, Some(p)) => {
            let asked = format!("T = {} K, p = {} Pa", exact(t), exact(p));
            let found = lightest::density(input, t, p, LIMIT, TOLERANCE).map_err(|r| input.refused(r, &asked, arguments))?;
            let how = format!("{}, limit {LIMIT}, tolerance {TOLERANCE:e}", upward(found.first_bracket));
            Ok((found.state, asked, Some(how)))
        }
        (Some(_), Some(_)) => Err(arguments.fault("--rho and --p are both given; one fixes the other")),
        (None, None) => Err(arguments.fault("--rho or --p is missing")),
    }
}

fn properties(arguments: &Arguments) -> Result<String, Fault> {
    let input = Input::read(arguments)?;
    let (state, asked, how) = state_at(arguments, &input)?;
    let mut above = input.heading(asked);
    above.extend(how.map(|how| heading("how", "density", how)));
    written(arguments, Report { heading: above, groups: state_groups(arguments, &state) })
}

fn coefficient_rows(mixture: &Mixture, ln_phi: &[f64]) -> Vec<Row> {
    mixture.components().iter().zip(ln_phi).map(|(component, v)| row(format!("ln_phi_{component}"), format!("ln phi {component}"), *v, "")).collect()
}

fn fugacity(arguments: &Arguments) -> Result<String, Fault> {
    let input = Input::read(arguments)?;
    let (state, asked, how) = state_at(arguments, &input)?;
    let ln_phi = gerg::fugacity_in(&input.file, &input.mixture, input.range, state.temperature, state.molar_density);
    let ln_phi = ln_phi.map_err(|r| input.refused(r, &asked, arguments))?;
    let mut above = input.heading(asked);
    above.extend(how.map(|how| heading("how", "density", how)));
    let mut rows = vec![row("molar_density", "molar density", state.molar_density, "mol/m³")];
    rows.extend(coefficient_rows(&input.mixture, &ln_phi));
    written(arguments, Report { heading: above, groups: vec![Group { key: "fugacity", title: "fugacity coefficients".into(), rows, many: false }] })
}

fn density(arguments: &Arguments) -> Result<String, Fault> {
    let input = Input::read(arguments)?;
    let (t, p) = (arguments.needed("--t")?, arguments.needed("--p")?);
    let (limit, tolerance) = (arguments.whole("--limit", Some(LIMIT))?, arguments.number("--tolerance")?.unwrap_or(TOLERANCE));
    let asked = format!("T = {} K, target p = {} Pa", exact(t), exact(p));
    let bracket = arguments.pair("--lo", "--hi")?;
    let found = match bracket {
        Some([lo, hi]) => gerg::density_in(&input.file, &input.mixture, input.range, t, p, Search { lo, hi, limit, tolerance }),
        None => lightest::density(&input, t, p, limit, tolerance),
    };
    let found = found.map_err(|r| input.refused(r, &asked, arguments))?;
    let default = |name| if arguments.text(name).is_some() { "" } else { " (the default)" };
    let bracket = bracket.map_or_else(|| upward(found.first_bracket), |[lo, hi]| format!("bracket {} .. {} mol/m³", exact(lo), exact(hi)));
    let how = format!("{bracket}, limit {limit}{}, tolerance {tolerance:e}{}", default("--limit"), default("--tolerance"));
    let mut above = input.heading(asked);
    above.push(heading("how", "search", how));
    let mut groups = state_groups(arguments, &found.state);
    groups.push(Group { key: "search", title: "search".into(), rows: search_rows(&found), many: false });
    written(arguments, Report { heading: above, groups })
}

fn roots(arguments: &Arguments) -> Result<String, Fault> {
    let input = Input::read(arguments)?;
    let (t, p) = (arguments.needed("--t")?, arguments.needed("--p")?);
    let asked = format!("T = {} K, p = {} Pa", exact(t), exact(p));
    let roots = gerg::outer_roots(&input.file, &input.mixture, t, p).map_err(|r| input.refused(r, &asked, arguments))?;
    let group = |(k, root): (usize, &gerg::Root)| {
        let mut rows = vec![
            row("molar_density", "molar density", root.molar_density, "mol/m³"),
            row("pressure", "pressure", root.pressure, "Pa"),
            row("compressibility", "compressibility factor Z", root.compressibility, ""),
            row("gibbs_energy", "Gibbs energy", root.gibbs_energy, "J/mol"),
        ];
        rows.extend(coefficient_rows(&input.mixture, &root.ln_fugacity_coefficients));
        Group { key: "roots", title: format!("exterior root {} of {}", k + 1, roots.len()), rows, many: true }
    };
    written(arguments, Report { heading: input.heading(asked), groups: roots.iter().enumerate().map(group).collect() })
}

fn saturation(arguments: &Arguments) -> Result<String, Fault> {
    let input = Input::read(arguments)?;
    let p = arguments.needed("--p")?;
    let given = arguments.pair("--lo", "--hi")?;
    let (ends, limit) = (given.unwrap_or(SATURATION_ENDS), arguments.whole("--limit", Some(LIMIT))?);
    let asked = format!("p = {} Pa", exact(p));
    let found = gerg::pure_saturation(&input.file, &input.mixture, p, ends, limit).map_err(|r| input.refused(r, &asked, arguments))?;
    let default = |is: bool| if is { " (the default)" } else { "" };
    let mut above = input.heading(asked);
    let limits = [default(given.is_none()), default(arguments.text("--limit").is_none())];
    above.push(heading("how", "search", format!("{} .. {} K{}, limit {limit}{}", exact(ends[0]), exact(ends[1]), limits[0], limits[1])));
    let Some(s) = found else {
        above.push(Heading { json: "false".into(), ..heading("enclosed", "answer", "not enclosed: no saturation found between these ends".into()) });
        return written(arguments, Report { heading: above, groups: Vec::new() });
    };
    above.push(Heading { json: "true".into(), ..heading("enclosed", "answer", "found".into()) });
    written(arguments, Report { heading: above, groups: vec![saturation_group(&s)] })
}

fn saturation_group(s: &Saturation) -> Group {
    let rows = vec![
        row("temperature", "temperature", s.temperature, "K"),
        row("pressure", "pressure", s.pressure, "Pa"),
        row("liquid_compressibility", "liquid Z", s.liquid_compressibility, ""),
        row("vapour_compressibility", "vapour Z", s.vapour_compressibility, ""),
        row("liquid_molar_volume", "liquid volume", s.liquid_molar_volume, "m³/mol"),
        row("vapour_molar_volume", "vapour volume", s.vapour_molar_volume, "m³/mol"),
        row("ln_fugacity_coefficient", "ln phi of the vapour", s.ln_fugacity_coefficient, ""),
        row("residual", "difference of ln phi", s.residual, ""),
        count("trials", "trials", s.iterations),
    ];
    Group { key: "saturation", title: "saturation".into(), rows, many: false }
}
