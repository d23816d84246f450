//! A picture of curves over pressure, panels below each other.
use crate::format::wrapped;
use std::fmt::Write;

pub struct Panel {
    pub label: &'static str,
    pub color: &'static str,
    /// Stretches of (pressure in MPa, value).
    pub lines: Vec<Vec<(f64, f64)>>,
}

const WIDTH: f64 = 920.0;
/// Room for a tick's text of nine characters beside the panel's label.
const LEFT: f64 = 116.0;
const RIGHT: f64 = 44.0;
const PANEL: f64 = 300.0;
const GAP: f64 = 40.0;
const LINE: f64 = 16.0;
/// Characters of the small text that fit the width.
const FIT: usize = 118;

/// Ticks at multiples of 1, 2 or 5 times a power of ten that cover [lo, hi], at most some `most`, and how many decimals they need.
fn ticks(lo: f64, hi: f64, most: f64) -> (Vec<f64>, usize) {
    let rough = (hi - lo).max(hi.abs() * 1e-6).max(1e-12) / most;
    let power = rough.log10().floor();
    let base = 10f64.powf(power);
    let step = base * [1.0, 2.0, 5.0, 10.0].into_iter().find(|m| m * base >= rough * 0.999).unwrap_or(10.0);
    let (first, last) = ((lo / step).floor() as i64, (hi / step).ceil() as i64);
    let decimals = (-step.log10().floor()).max(0.0) as usize;
    ((first..=last).map(|k| k as f64 * step).collect(), decimals)
}

fn escaped(text: &str) -> String {
    text.replace('&', "&amp;").replace('<', "&lt;").replace('>', "&gt;")
}

fn text(out: &mut String, x: f64, y: f64, attributes: &str, words: &str) {
    let _ = writeln!(out, "<text x=\"{x:.1}\" y=\"{y:.1}\" {attributes}>{}</text>", escaped(words));
}

fn line(out: &mut String, [x1, y1, x2, y2]: [f64; 4], color: &str) {
    let _ = writeln!(out, "<line x1=\"{x1:.1}\" y1=\"{y1:.1}\" x2=\"{x2:.1}\" y2=\"{y2:.1}\" stroke=\"{color}\"/>");
}

/// Where a value lies between two pixels.
struct Scale {
    values: [f64; 2],
    pixels: [f64; 2],
}

impl Scale {
    fn of(ticks: &[f64], pixels: [f64; 2]) -> Scale {
        Scale { values: [ticks[0], ticks[ticks.len() - 1]], pixels }
    }
    fn at(&self, v: f64) -> f64 {
        let [a, b] = self.values;
        self.pixels[0] + (v - a) / (b - a) * (self.pixels[1] - self.pixels[0])
    }
}

fn panel(out: &mut String, panel: &Panel, top: f64, (p_ticks, p_decimals, x): (&[f64], usize, &Scale)) {
    let bottom = top + PANEL;
    let values = || panel.lines.iter().flatten().map(|(_, v)| *v);
    let (y_ticks, decimals) = ticks(values().fold(f64::INFINITY, f64::min), values().fold(f64::NEG_INFINITY, f64::max), 6.0);
    let y = Scale::of(&y_ticks, [bottom, top]);
    for tick in p_ticks {
        line(out, [x.at(*tick), top, x.at(*tick), bottom], "#dddddd");
        text(out, x.at(*tick), bottom + 18.0, "text-anchor=\"middle\"", &format!("{tick:.p_decimals$}"));
    }
    for tick in &y_ticks {
        line(out, [LEFT, y.at(*tick), WIDTH - RIGHT, y.at(*tick)], "#dddddd");
        text(out, LEFT - 8.0, y.at(*tick) + 4.0, "text-anchor=\"end\"", &format!("{tick:.decimals$}"));
    }
    line(out, [LEFT, top, LEFT, bottom], "#444444");
    line(out, [LEFT, bottom, WIDTH - RIGHT, bottom], "#444444");
    let middle = (top + bottom) / 2.0;
    text(out, 24.0, middle, &format!("text-anchor=\"middle\" transform=\"rotate(-90 24 {middle:.1})\" fill=\"{}\"", panel.color), panel.label);
    for stretch in &panel.lines {
        let points: Vec<String> = stretch.iter().map(|(p, v)| format!("{:.2},{:.2}", x.at(*p), y.at(*v))).collect();
        if let [one] = points.as_slice() {
            let (cx, cy) = one.split_once(',').expect("two numbers");
            let _ = writeln!(out, "<circle cx=\"{cx}\" cy=\"{cy}\" r=\"2\" fill=\"{}\"/>", panel.color);
        } else {
            let _ = writeln!(out, "<polyline fill=\"none\" stroke=\"{}\" stroke-width=\"1.8\" points=\"{}\"/>", panel.color, points.join(" "));
        }
    }
}

/// `range`: the pressures that the axis covers, MPa.
pub fn picture(title: &str, small: &str, range: [f64; 2], panels: &[Panel]) -> String {
    let small = wrapped(small, FIT);
    let head = 44.0 + LINE * small.len() as f64 + 12.0;
    let height = head + panels.len() as f64 * (PANEL + GAP) + 14.0;
    let mut out = String::new();
    let _ = writeln!(
        out,
        "<svg xmlns=\"http://www.w3.org/2000/svg\" width=\"{WIDTH}\" height=\"{height}\" viewBox=\"0 0 {WIDTH} {height}\" font-family=\"sans-serif\" font-size=\"13\">"
    );
    let _ = writeln!(out, "<rect width=\"100%\" height=\"100%\" fill=\"white\"/>");
    text(&mut out, LEFT, 28.0, "font-size=\"18\"", title);
    for (k, words) in small.iter().enumerate() {
        text(&mut out, LEFT, 48.0 + LINE * k as f64, "font-size=\"12\" fill=\"#555555\"", words);
    }
    let (p_ticks, p_decimals) = ticks(range[0], range[1], 8.0);
    let x = Scale::of(&p_ticks, [LEFT, WIDTH - RIGHT]);
    for (k, each) in panels.iter().enumerate() {
        panel(&mut out, each, head + k as f64 * (PANEL + GAP), (&p_ticks, p_decimals, &x));
    }
    text(&mut out, (LEFT + WIDTH - RIGHT) / 2.0, height - 10.0, "text-anchor=\"middle\"", "pressure, MPa");
    out.push_str("</svg>\n");
    out
}
