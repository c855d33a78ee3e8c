//! A plot of bars on a logarithmic scale, as SVG.

use std::fmt::Write;

/// A bar: whose it is (a place in `COLOURS`), how long, and what stands beside it.
pub struct Bar {
    pub name: String,
    pub colour: usize,
    pub value: f64,
    pub label: String,
}

/// Groups of bars on one scale.
pub struct Panel {
    pub title: String,
    pub unit: &'static str,
    pub groups: Vec<(String, Vec<Bar>)>,
}

pub const COLOURS: [&str; 6] = ["#0b7a4b", "#8a8f94", "#1f5fa8", "#7fb0e3", "#b5541c", "#eeb07f"];

const WIDTH: f64 = 880.0;
const LEFT: f64 = 150.0;
const RIGHT: f64 = 730.0;
const BAR: f64 = 13.0;
const STEP: f64 = 17.0;
const HEAD: f64 = 26.0;
const GAP: f64 = 10.0;

/// Where a value lies between two powers of ten.
fn place(value: f64, low: i32, high: i32) -> f64 {
    let part = (value.log10() - f64::from(low)) / f64::from(high - low);
    LEFT + (RIGHT - LEFT) * part.clamp(0.0, 1.0)
}

fn text(out: &mut String, x: f64, y: f64, style: &str, text: &str) {
    let text = text.replace('&', "&amp;").replace('<', "&lt;");
    let _ = writeln!(out, "<text x=\"{x:.1}\" y=\"{y:.1}\" {style}>{text}</text>");
}

fn panel(out: &mut String, panel: &Panel, top: f64) -> f64 {
    let values = || panel.groups.iter().flat_map(|group| &group.1).map(|bar| bar.value.log10());
    // A bar that all but reaches a power of ten does not open another one below it.
    let low = (values().fold(f64::MAX, f64::min) + 0.05).floor() as i32;
    let high = (values().fold(f64::MIN, f64::max).ceil() as i32).max(low + 1);
    text(out, LEFT, top + 16.0, "font-size=\"15\" font-weight=\"bold\"", &panel.title);
    let mut bottom = top + 30.0;
    for (_, bars) in &panel.groups {
        bottom += HEAD + STEP * bars.len() as f64 + GAP;
    }
    for power in low..=high {
        let x = place(10f64.powi(power), low, high);
        let from = top + 30.0;
        let _ =
            writeln!(out, "<line x1=\"{x:.1}\" x2=\"{x:.1}\" y1=\"{from:.1}\" y2=\"{bottom:.1}\" stroke=\"#d5d8db\"/>");
        let number = if power < 0 {
            format!("{:.*}", -power as usize, 10f64.powi(power))
        } else {
            format!("{:.0}", 10f64.powi(power))
        };
        text(
            out,
            x,
            bottom + 15.0,
            "font-size=\"12\" text-anchor=\"middle\" fill=\"#444\"",
            &format!("{number} {}", panel.unit),
        );
    }
    let mut y = top + 30.0;
    for (name, bars) in &panel.groups {
        text(out, LEFT, y + 17.0, "font-size=\"13\" font-weight=\"bold\"", name);
        y += HEAD;
        for bar in bars {
            let end = place(bar.value, low, high);
            let (width, colour) = ((end - LEFT).max(1.0), COLOURS[bar.colour]);
            text(out, LEFT - 8.0, y + 11.0, "font-size=\"12\" text-anchor=\"end\"", &bar.name);
            let _ = writeln!(
                out,
                "<rect x=\"{LEFT:.1}\" y=\"{y:.1}\" width=\"{width:.1}\" height=\"{BAR:.1}\" fill=\"{colour}\"/>"
            );
            text(out, end + 6.0, y + 11.0, "font-size=\"12\"", &bar.label);
            y += STEP;
        }
        y += GAP;
    }
    bottom + 40.0
}

/// The panels, one below the other.
pub fn svg(panels: &[Panel]) -> String {
    let mut body = String::new();
    let mut y = 12.0;
    for one in panels {
        y = panel(&mut body, one, y);
    }
    format!(
        "<svg xmlns=\"http://www.w3.org/2000/svg\" viewBox=\"0 0 {WIDTH} {y:.0}\" width=\"{WIDTH}\" height=\"{y:.0}\" \
         font-family=\"sans-serif\">\n<rect width=\"100%\" height=\"100%\" fill=\"white\"/>\n{body}</svg>\n"
    )
}
