//! Numbers as text.

/// Ten significant digits, for a person.
pub fn decimal(v: f64) -> String {
    let size = v.abs();
    if v == 0.0 || !v.is_finite() {
        return format!("{v}");
    }
    if !(1e-4..1e9).contains(&size) {
        return format!("{v:.9e}");
    }
    let whole_digits = size.log10().floor() as i32 + 1;
    format!("{v:.*}", (10 - whole_digits).clamp(1, 13) as usize)
}

/// The fewest digits that read back as the same double.
pub fn exact(v: f64) -> String {
    if v != 0.0 && v.is_finite() && !(1e-4..1e15).contains(&v.abs()) { format!("{v:e}") } else { format!("{v}") }
}

pub fn bits(v: f64) -> String {
    format!("0x{:016x}", v.to_bits())
}

/// A JSON string.
pub fn quoted(text: &str) -> String {
    let mut out = String::from("\"");
    for c in text.chars() {
        match c {
            '"' => out.push_str("\\\""),
            '\\' => out.push_str("\\\\"),
            c if (c as u32) < 32 => out.push_str(&format!("\\u{:04x}", c as u32)),
            c => out.push(c),
        }
    }
    out.push('"');
    out
}

/// Lines of at most so many characters, broken behind commas and semicolons, so that a name and its fraction stay together.
pub fn wrapped(text: &str, most: usize) -> Vec<String> {
    let mut lines = vec![String::new()];
    for word in text.split_inclusive([',', ';']).map(str::trim) {
        let full = lines.last().is_some_and(|line| !line.is_empty() && line.chars().count() + 1 + word.chars().count() > most);
        if full {
            lines.push(String::new());
        }
        let line = lines.last_mut().expect("a line");
        if !line.is_empty() {
            line.push(' ');
        }
        line.push_str(word);
    }
    lines
}
