//! growth.svg: the time of the check over the number of blocks, a line for each side.

use crate::cases::{GROWS, GROWTH};
use crate::measure::Row;
use crate::report::{grouped, grown};
use std::fmt::Write;

const WIDTH: f64 = 720.0;
const HEIGHT: f64 = 400.0;
const LEFT: f64 = 70.0;
const RIGHT: f64 = 600.0;
const TOP: f64 = 50.0;
const BOTTOM: f64 = 340.0;

/// Colours of its own for light and dark, and a background, so that it is readable on any page.
const STYLE: &str = "
  .ground { fill: #ffffff } text { fill: #24292f; font: 13px sans-serif }
  .title { font-size: 15px; font-weight: bold } .grid { stroke: #d8dee4 } .axis { stroke: #57606a }
  .library { stroke: #0550ae; fill: #0550ae } .baseline { stroke: #bc4c00; fill: #bc4c00 }
  polyline { stroke-width: 2.5 } polyline.library, polyline.baseline { fill: none }
  polyline.baseline { stroke-dasharray: 7 4 } text.library, text.baseline { stroke: none; font-weight: bold }
  @media (prefers-color-scheme: dark) {
    .ground { fill: #0d1117 } text { fill: #e6edf3 } .grid { stroke: #30363d } .axis { stroke: #8b949e }
    .library { stroke: #79c0ff; fill: #79c0ff } .baseline { stroke: #ffa657; fill: #ffa657 }
    polyline.library, polyline.baseline { fill: none }
  }
";

/// A step of 1, 2 or 5 times a power of ten that divides `most` into at most six parts.
fn step(most: f64) -> f64 {
    let power = 10f64.powf((most / 6.0).log10().floor());
    [1.0, 2.0, 5.0, 10.0].map(|n| n * power).into_iter().find(|step| most / step <= 6.0).unwrap()
}

pub fn growth(rows: &[Row]) -> String {
    let grown = grown(rows, GROWS, &GROWTH);
    let line = |ns: fn(&Row) -> f64| -> Vec<(f64, f64)> {
        grown.iter().map(|(blocks, row)| (*blocks as f64, ns(row) / 1e6)).collect()
    };
    let library = line(|row| row.library.median);
    let baseline = line(|row| row.baseline.median);
    let slowest = library.iter().chain(&baseline).map(|point| point.1).fold(0.0, f64::max);
    let tick = step(slowest);
    let most = (slowest / tick).ceil() * tick;
    let widest = library.last().unwrap().0;
    let x = |blocks: f64| LEFT + (RIGHT - LEFT) * blocks / widest;
    let y = |ms: f64| BOTTOM - (BOTTOM - TOP) * ms / most;

    let mut svg = String::new();
    let mut put = |text: String| writeln!(svg, "{text}").unwrap();
    put(format!(
        r#"<svg xmlns="http://www.w3.org/2000/svg" viewBox="0 0 {WIDTH} {HEIGHT}" role="img" aria-label="Time of the check over the number of full index blocks, for the library and the baseline">"#
    ));
    put(format!("<style>{STYLE}</style>"));
    put(format!(r#"<rect class="ground" width="{WIDTH}" height="{HEIGHT}" rx="6"/>"#));
    put(format!(r#"<text class="title" x="{LEFT}" y="28">Time of the check</text>"#));

    for i in 0..=(most / tick).round() as usize {
        let ms = tick * i as f64;
        let at = y(ms);
        put(format!(r#"<line class="grid" x1="{LEFT}" y1="{at:.1}" x2="{RIGHT}" y2="{at:.1}"/>"#));
        let places = if tick < 1.0 { (-tick.log10()).ceil() as usize } else { 0 };
        let label = at + 4.5;
        put(format!(r#"<text x="{}" y="{label:.1}" text-anchor="end">{ms:.places$}</text>"#, LEFT - 8.0));
    }
    put(format!(r#"<line class="axis" x1="{LEFT}" y1="{BOTTOM}" x2="{RIGHT}" y2="{BOTTOM}"/>"#));
    put(format!(r#"<line class="axis" x1="{LEFT}" y1="{TOP}" x2="{LEFT}" y2="{BOTTOM}"/>"#));
    for (blocks, _) in &library {
        let at = x(*blocks);
        put(format!(r#"<line class="axis" x1="{at:.1}" y1="{BOTTOM}" x2="{at:.1}" y2="{}"/>"#, BOTTOM + 5.0));
        put(format!(
            r#"<text x="{at:.1}" y="{}" text-anchor="middle">{}</text>"#,
            BOTTOM + 20.0,
            grouped(*blocks as usize)
        ));
    }
    let (middle, low) = ((LEFT + RIGHT) / 2.0, HEIGHT - 16.0);
    put(format!(
        r#"<text x="{middle}" y="{low}" text-anchor="middle">full index blocks (256 live slots each)</text>"#
    ));
    let height = (TOP + BOTTOM) / 2.0;
    put(format!(
        r#"<text transform="translate(22 {height}) rotate(-90)" text-anchor="middle">milliseconds</text>"#
    ));

    let (a, b) = (y(library.last().unwrap().1), y(baseline.last().unwrap().1));
    // names at the ends of the lines, at least 18 apart
    let apart = ((18.0 - (a - b).abs()) / 2.0).max(0.0) * if a <= b { 1.0 } else { -1.0 };
    // the dashed line comes last, so that both show where they agree
    for (name, points, end) in [("library", &library, a - apart), ("baseline", &baseline, b + apart)] {
        let places: Vec<String> =
            points.iter().map(|(blocks, ms)| format!("{:.1},{:.1}", x(*blocks), y(*ms))).collect();
        put(format!(r#"<polyline class="{name}" points="{}"/>"#, places.join(" ")));
        for (blocks, ms) in points {
            put(format!(r#"<circle class="{name}" cx="{:.1}" cy="{:.1}" r="3.5"/>"#, x(*blocks), y(*ms)));
        }
        put(format!(r#"<text class="{name}" x="{}" y="{:.1}">{name}</text>"#, RIGHT + 12.0, end + 4.5));
    }
    svg.push_str("</svg>\n");
    svg
}
