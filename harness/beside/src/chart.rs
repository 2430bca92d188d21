//! A chart as SVG: small panels with two curves each, both axes logarithmic.

use std::fmt::Write;
use text::grouped;

pub struct Curve {
    pub name: &'static str,
    pub points: Vec<(f64, f64)>,
}

pub struct Panel {
    pub name: &'static str,
    pub curves: [Curve; 2],
}

/// Panels in a row, and the plot's measures in a panel.
const PANELS: usize = 3;
const WIDTH: f64 = 250.0;
const HEIGHT: f64 = 160.0;
const LEFT: f64 = 58.0;
const TOP: f64 = 34.0;
const STEP_X: f64 = WIDTH + LEFT + 14.0;
const STEP_Y: f64 = HEIGHT + TOP + 44.0;
const HEAD: f64 = 44.0;
/// Room for the last panel's last number.
const RIGHT: f64 = 18.0;

/// The first curve is drawn through, the second dashed, so that they part without colour too.
const STYLE: &str = "
  text { font: 12px sans-serif; fill: #24292f }
  .title { font-size: 16px; font-weight: bold }
  .name { font-weight: bold }
  .grid { stroke: #d0d7de; stroke-width: 1 }
  .curve0 { stroke: #0550ae; stroke-width: 2; fill: none }
  .curve1 { stroke: #bc4c00; stroke-width: 2; fill: none; stroke-dasharray: 5 4 }
  .dot0 { fill: #0550ae }
  .dot1 { fill: #bc4c00 }
  @media (prefers-color-scheme: dark) {
    text { fill: #e6edf3 }
    .grid { stroke: #3d444d }
    .curve0 { stroke: #79c0ff }
    .curve1 { stroke: #ffa657 }
    .dot0 { fill: #79c0ff }
    .dot1 { fill: #ffa657 }
  }
";

/// A logarithmic axis over whole powers of ten.
struct Axis {
    from: i32,
    to: i32,
}

impl Axis {
    fn over(values: impl Iterator<Item = f64> + Clone) -> Self {
        let least = values.clone().fold(f64::INFINITY, f64::min);
        let most = values.fold(0.0, f64::max);
        let (from, to) = (least.log10().floor() as i32, most.log10().ceil() as i32);
        Self { from, to: to.max(from + 1) }
    }

    /// Where a value lies, from 0 to 1.
    fn share(&self, value: f64) -> f64 {
        (value.log10() - f64::from(self.from)) / f64::from(self.to - self.from)
    }

    fn ticks(&self) -> impl Iterator<Item = (f64, String)> {
        (self.from..=self.to).map(|power| {
            let value = 10_f64.powi(power);
            (value, if power < 0 { format!("{value}") } else { grouped(value as u64) })
        })
    }
}

pub fn svg(title: &str, x_label: &str, panels: &[Panel]) -> String {
    let points = || panels.iter().flat_map(|panel| &panel.curves).flat_map(|curve| &curve.points);
    let x = Axis::over(points().map(|point| point.0));
    let y = Axis::over(points().map(|point| point.1));
    let rows = panels.len().div_ceil(PANELS);
    let (width, height) = (STEP_X * PANELS as f64 + RIGHT, HEAD + STEP_Y * rows as f64);
    let mut out = format!("<svg xmlns=\"http://www.w3.org/2000/svg\" viewBox=\"0 0 {width} {height}\">\n");
    write!(out, "<title>{title}</title>\n<style>{STYLE}</style>\n").unwrap();
    writeln!(out, "<text class=\"title\" x=\"{LEFT}\" y=\"20\">{title}</text>").unwrap();
    if let Some(panel) = panels.first() {
        for (index, curve) in panel.curves.iter().enumerate() {
            let left = LEFT + 110.0 * index as f64;
            writeln!(out, "<path class=\"curve{index}\" d=\"M{left} 36h26\"/>").unwrap();
            writeln!(out, "<text x=\"{}\" y=\"40\">{}</text>", left + 32.0, curve.name).unwrap();
        }
    }
    for (index, panel) in panels.iter().enumerate() {
        let left = LEFT + STEP_X * (index % PANELS) as f64;
        let top = HEAD + TOP + STEP_Y * (index / PANELS) as f64;
        writeln!(out, "<g transform=\"translate({left} {top})\">").unwrap();
        writeln!(out, "<text class=\"name\" x=\"0\" y=\"-8\">{}</text>", panel.name).unwrap();
        draw(&mut out, panel, &x, &y, x_label);
        out += "</g>\n";
    }
    out + "</svg>\n"
}

fn draw(out: &mut String, panel: &Panel, x: &Axis, y: &Axis, x_label: &str) {
    for (value, text) in x.ticks() {
        let at = WIDTH * x.share(value);
        writeln!(out, "<path class=\"grid\" d=\"M{at:.1} 0v{HEIGHT}\"/>").unwrap();
        writeln!(out, "<text x=\"{at:.1}\" y=\"{}\" text-anchor=\"middle\">{text}</text>", HEIGHT + 16.0)
            .unwrap();
    }
    for (value, text) in y.ticks() {
        let at = HEIGHT * (1.0 - y.share(value));
        writeln!(out, "<path class=\"grid\" d=\"M0 {at:.1}h{WIDTH}\"/>").unwrap();
        writeln!(out, "<text x=\"-6\" y=\"{:.1}\" text-anchor=\"end\">{text}</text>", at + 4.0).unwrap();
    }
    let middle = WIDTH / 2.0;
    writeln!(out, "<text x=\"{middle}\" y=\"{}\" text-anchor=\"middle\">{x_label}</text>", HEIGHT + 32.0)
        .unwrap();
    for (index, curve) in panel.curves.iter().enumerate() {
        let places: Vec<(f64, f64)> = curve
            .points
            .iter()
            .map(|&(at, value)| (WIDTH * x.share(at), HEIGHT * (1.0 - y.share(value))))
            .collect();
        let line: Vec<String> = places.iter().map(|(at, value)| format!("{at:.1} {value:.1}")).collect();
        writeln!(out, "<path class=\"curve{index}\" d=\"M{}\"/>", line.join("L")).unwrap();
        for (at, value) in places {
            writeln!(out, "<circle class=\"dot{index}\" cx=\"{at:.1}\" cy=\"{value:.1}\" r=\"3\"/>").unwrap();
        }
    }
}
