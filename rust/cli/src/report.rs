//! An answer as a table for a person or as JSON.
use crate::format::{bits, decimal, exact, quoted, wrapped};

/// Characters of a heading's text in a line.
const FIT: usize = 90;

pub enum Value {
    Number(f64),
    Count(u64),
}

pub struct Row {
    /// The name in JSON.
    pub key: String,
    pub name: String,
    pub value: Value,
    pub unit: &'static str,
}

pub fn row(key: impl Into<String>, name: impl Into<String>, value: f64, unit: &'static str) -> Row {
    Row { key: key.into(), name: name.into(), value: Value::Number(value), unit }
}

pub fn count(key: &str, name: &str, value: u64) -> Row {
    Row { key: key.into(), name: name.into(), value: Value::Count(value), unit: "" }
}

/// Rows under a title; in JSON an object under `key`, or one of a list where `many`.
pub struct Group {
    pub key: &'static str,
    pub title: String,
    pub rows: Vec<Row>,
    pub many: bool,
}

/// What was asked and how, then the answer.
pub struct Report {
    pub heading: Vec<Heading>,
    pub groups: Vec<Group>,
}

/// A line above the table; in JSON a member under `key`, its text there already JSON.
pub struct Heading {
    pub key: &'static str,
    pub name: &'static str,
    pub text: String,
    pub json: String,
}

/// A heading that says the same in both.
pub fn heading(key: &'static str, name: &'static str, text: String) -> Heading {
    Heading { key, name, json: quoted(&text), text }
}

/// A name and its text, long text in several lines.
pub fn named(name: &str, width: usize, text: &str) -> String {
    let below = format!("\n{:width$}  ", "");
    format!("{name:width$}  {}\n", wrapped(text, FIT).join(&below))
}

impl Report {
    pub fn table(&self, as_bits: bool) -> String {
        let width = self.heading.iter().map(|line| line.name.len()).max().unwrap_or(0);
        let mut out: String = self.heading.iter().map(|line| named(line.name, width, &line.text)).collect();
        for group in &self.groups {
            out.push_str(&format!("\n{}\n", group.title));
            out.push_str(&lines(&group.rows, as_bits));
        }
        out
    }

    pub fn json(&self, as_bits: bool) -> String {
        let mut members: Vec<String> = self.heading.iter().map(|line| format!("{}:{}", quoted(line.key), line.json)).collect();
        let object = |group: &Group| {
            let rows = group.rows.iter().map(|row| format!("{}:{}", quoted(&row.key), json_value(&row.value, as_bits)));
            format!("{{{}}}", rows.collect::<Vec<_>>().join(","))
        };
        let many: Vec<&Group> = self.groups.iter().filter(|group| group.many).collect();
        members.extend(self.groups.iter().filter(|group| !group.many).map(|group| format!("{}:{}", quoted(group.key), object(group))));
        if let Some(first) = many.first() {
            let list: Vec<String> = many.iter().map(|group| object(group)).collect();
            members.push(format!("{}:[{}]", quoted(first.key), list.join(",")));
        }
        format!("{{{}}}\n", members.join(","))
    }
}

fn json_value(value: &Value, as_bits: bool) -> String {
    match value {
        Value::Count(n) => n.to_string(),
        Value::Number(v) if as_bits => quoted(&bits(*v)),
        Value::Number(v) if v.is_finite() => exact(*v),
        Value::Number(_) => "null".into(),
    }
}

/// Names, values with their decimal points below each other, units.
fn lines(rows: &[Row], as_bits: bool) -> String {
    let texts: Vec<String> = rows
        .iter()
        .map(|row| match row.value {
            Value::Count(n) => n.to_string(),
            Value::Number(v) if as_bits => format!("{}  {}", bits(v), exact(v)),
            Value::Number(v) => decimal(v),
        })
        .collect();
    let before = |text: &str| if as_bits { 0 } else { text.find('.').unwrap_or(text.len()) };
    let name_width = rows.iter().map(|row| row.name.chars().count()).max().unwrap_or(0);
    let left = texts.iter().map(|text| before(text)).max().unwrap_or(0);
    let padded: Vec<String> = texts.iter().map(|text| format!("{}{text}", " ".repeat(left - before(text)))).collect();
    let width = padded.iter().map(String::len).max().unwrap_or(0);
    let line = |(row, text): (&Row, &String)| format!("  {:name_width$}  {text:width$}  {}", row.name, row.unit).trim_end().to_string() + "\n";
    rows.iter().zip(&padded).map(line).collect()
}
