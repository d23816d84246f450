//! Stands in for serde_json: the tables come from the coefficient file that GERG_FILE names and not from the embedded JSON, so that one
//! build serves every file, NaN and infinite coefficients included. A file that breaks the layout is refused.
use serde::{Deserialize, Value};

const NAMES: [&str; 21] = [
    "methane", "nitrogen", "carbon-dioxide", "ethane", "propane", "isobutane", "n-butane", "isopentane", "n-pentane", "n-hexane",
    "n-heptane", "n-octane", "n-nonane", "n-decane", "hydrogen", "oxygen", "carbon-monoxide", "water", "hydrogen-sulfide", "helium",
    "argon",
];

pub fn from_str<T: Deserialize>(_embedded: &str) -> Result<T, String> {
    let path = std::env::var("GERG_FILE").map_err(|fault| format!("GERG_FILE: {fault}"))?;
    let bytes = std::fs::read(&path).map_err(|fault| format!("{path}: {fault}"))?;
    T::from_value(&read(&bytes).ok_or("broken layout")?)
}

struct Reader<'a> {
    bytes: &'a [u8],
    at: usize,
}

impl Reader<'_> {
    fn byte(&mut self) -> Option<u8> {
        self.at += 1;
        self.bytes.get(self.at - 1).copied()
    }
    fn lead(&mut self, kind: u8, numbers: &[usize]) -> Option<()> {
        (self.byte()? == kind).then_some(())?;
        for number in numbers {
            (self.byte()? as usize == *number).then_some(())?;
        }
        Some(())
    }
    fn count(&mut self) -> Option<f64> {
        Some(f64::from(self.byte()?))
    }
    fn signed(&mut self) -> Option<f64> {
        Some(f64::from(self.byte()? as i8))
    }
    fn double(&mut self) -> Option<f64> {
        let part = self.bytes.get(self.at..self.at + 8)?;
        self.at += 8;
        Some(f64::from_le_bytes(part.try_into().ok()?))
    }
}

/// A table of one index, and one of two, counted from 1 with zeros elsewhere.
fn row(length: usize) -> Vec<f64> {
    vec![0.0; length]
}
fn square(rows: usize, length: usize) -> Vec<Vec<f64>> {
    vec![row(length); rows]
}

fn read(bytes: &[u8]) -> Option<Value> {
    let mut r = Reader { bytes, at: 0 };
    r.lead(1, &[])?;
    let revision = String::from_utf8(bytes.get(1..41)?.to_vec()).ok()?;
    r.at = 41;
    let [mut tc, mut mass, mut kpol, mut kexp] = [const { Vec::new() }; 4].map(|_: Vec<f64>| row(22));
    let (mut n0i, mut th0i) = (square(22, 8), square(22, 8));
    for i in 1..=21 {
        r.lead(2, &[i])?;
        (tc[i], mass[i], kpol[i], kexp[i]) = (r.double()?, r.double()?, r.count()?, r.count()?);
        for j in 1..=7 {
            n0i[i][j] = r.double()?;
        }
        for j in 4..=7 {
            th0i[i][j] = r.double()?;
        }
    }
    let [mut coik, mut doik, mut noik, mut toik] = [(); 4].map(|()| square(22, 25));
    for i in 1..=21 {
        for k in 1..=(kpol[i] + kexp[i]) as usize {
            r.lead(3, &[i, k])?;
            (coik[i][k], doik[i][k], noik[i][k], toik[i][k]) = (r.signed()?, r.signed()?, r.double()?, r.double()?);
        }
    }
    let [mut bt, mut bv, mut gt, mut gv, mut f, mut numbers] = [(); 6].map(|()| square(22, 22));
    for i in 1..=21 {
        for j in i..=21 {
            r.lead(4, &[i, j])?;
            (bt[i][j], bv[i][j], gt[i][j], gv[i][j]) = (r.double()?, r.double()?, r.double()?, r.double()?);
            (f[i][j], numbers[i][j]) = (r.double()?, r.signed()?);
        }
    }
    let (mut kpolij, mut kexpij) = (row(1), row(1));
    while bytes.get(r.at) == Some(&5) {
        r.lead(5, &[kpolij.len()])?;
        kpolij.push(r.count()?);
        kexpij.push(r.count()?);
    }
    let functions = kpolij.len();
    let [mut c, mut e, mut g, mut n, mut t, mut d] = [(); 6].map(|()| square(functions, 13));
    for m in 1..functions {
        for k in 1..=(kpolij[m] + kexpij[m]) as usize {
            r.lead(6, &[m, k])?;
            d[m][k] = r.signed()?;
            (c[m][k], e[m][k], g[m][k], n[m][k], t[m][k]) = (r.double()?, r.double()?, r.double()?, r.double()?, r.double()?);
        }
    }
    (r.at == bytes.len()).then_some(())?;
    let one = |v: Vec<f64>| Value::List(v.into_iter().map(Value::Number).collect());
    let two = |v: Vec<Vec<f64>>| Value::List(v.into_iter().map(one).collect());
    let tables = vec![
        ("Tc", one(tc)), ("MMiGERG", one(mass)), ("kpol", one(kpol)), ("kexp", one(kexp)), ("coik", two(coik)), ("doik", two(doik)),
        ("noik", two(noik)), ("toik", two(toik)), ("mNumb", two(numbers)), ("kpolij", one(kpolij)), ("kexpij", one(kexpij)),
        ("cijk", two(c)), ("eijk", two(e)), ("gijk", two(g)), ("nijk", two(n)), ("tijk", two(t)), ("dijk", two(d)), ("btij", two(bt)),
        ("bvij", two(bv)), ("gtij", two(gt)), ("gvij", two(gv)), ("fij", two(f)), ("th0i", two(th0i)), ("n0i", two(n0i)),
    ];
    let map = |fields: Vec<(&str, Value)>| Value::Map(fields.into_iter().map(|(key, value)| (key.to_string(), value)).collect());
    Some(map(vec![
        ("provenance", map(vec![("revision", Value::Text(revision))])),
        ("components", Value::List(NAMES.iter().map(|name| Value::Text(name.to_string())).collect())),
        ("tables", map(tables)),
    ]))
}
