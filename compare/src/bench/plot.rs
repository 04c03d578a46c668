//! A plot of time against job size, as SVG that needs nothing else.

use super::Times;
use std::fmt::Write;

const WIDTH: f64 = 860.0;
const HEIGHT: f64 = 520.0;
const LEFT: f64 = 80.0;
const RIGHT: f64 = 20.0;
const TOP: f64 = 50.0;
const BOTTOM: f64 = 60.0;
const LIBRARY: &str = "#0b6fb8";
const RUST: &str = "#d9541e";

/// A scale of powers of ten, from `least` to `most`, over `from` to `to` on the page.
struct Scale {
    least: f64,
    most: f64,
    from: f64,
    to: f64,
}

impl Scale {
    fn of(values: impl Iterator<Item = f64>, from: f64, to: f64) -> Self {
        let (least, most) =
            values.fold((f64::INFINITY, 0f64), |(least, most), value| (least.min(value), most.max(value)));
        Self { least: least * 0.8, most: most * 1.25, from, to }
    }

    fn place(&self, value: f64) -> f64 {
        let part = (value / self.least).log10() / (self.most / self.least).log10();
        self.from + part * (self.to - self.from)
    }

    fn powers(&self) -> impl Iterator<Item = f64> {
        let (first, last) = (self.least.log10().ceil() as i32, self.most.log10().floor() as i32);
        (first..=last).map(|power| 10f64.powi(power))
    }
}

/// The plot of jobs, each with its size in bytes and its times.
pub fn svg(jobs: &[(usize, Times)]) -> String {
    let across = Scale::of(jobs.iter().map(|(size, _)| *size as f64), LEFT, WIDTH - RIGHT);
    let times = jobs.iter().flat_map(|(_, times)| [times.library, times.rust()]);
    let up = Scale::of(times, HEIGHT - BOTTOM, TOP);
    let mut svg = format!(
        "<svg xmlns=\"http://www.w3.org/2000/svg\" viewBox=\"0 0 {WIDTH} {HEIGHT}\" \
         font-family=\"sans-serif\" font-size=\"13\">\n\
         <rect width=\"100%\" height=\"100%\" fill=\"white\"/>\n"
    );
    grid(&mut svg, &across, &up);
    for (name, colour, of) in
        [("Rust", RUST, Times::rust as fn(&Times) -> f64), ("library", LIBRARY, |times| times.library)]
    {
        _ = writeln!(svg, "<g fill=\"{colour}\" fill-opacity=\"0.5\"><title>{name}</title>");
        for (size, times) in jobs {
            let (x, y) = (across.place(*size as f64), up.place(of(times)));
            _ = writeln!(svg, "<circle cx=\"{x:.1}\" cy=\"{y:.1}\" r=\"2.6\"/>");
        }
        svg += "</g>\n";
    }
    legend(&mut svg);
    svg + "</svg>\n"
}

fn grid(svg: &mut String, across: &Scale, up: &Scale) {
    for value in across.powers() {
        let (x, low) = (across.place(value), HEIGHT - BOTTOM);
        _ = writeln!(svg, "<path d=\"M{x:.1} {TOP}V{low}\" stroke=\"#ddd\"/>");
        _ = writeln!(svg, "<text x=\"{x:.1}\" y=\"{}\" text-anchor=\"middle\">{value}</text>", low + 20.0);
    }
    for value in up.powers() {
        let (y, right) = (up.place(value), WIDTH - RIGHT);
        _ = writeln!(svg, "<path d=\"M{LEFT} {y:.1}H{right}\" stroke=\"#ddd\"/>");
        let (x, y) = (LEFT - 8.0, y + 4.0);
        _ = writeln!(svg, "<text x=\"{x}\" y=\"{y:.1}\" text-anchor=\"end\">{}</text>", duration(value));
    }
    let (middle, low) = ((LEFT + WIDTH - RIGHT) / 2.0, HEIGHT - 15.0);
    _ = writeln!(svg, "<text x=\"{middle}\" y=\"{low}\" text-anchor=\"middle\">bytes of the job</text>");
}

fn legend(svg: &mut String) {
    let text = "Time from the bytes of a job to those of its answer";
    _ = writeln!(svg, "<text x=\"{LEFT}\" y=\"28\" font-size=\"16\">{text}</text>");
    for (x, name, colour) in [(620.0, "Rust", RUST), (700.0, "library", LIBRARY)] {
        _ = writeln!(svg, "<circle cx=\"{x}\" cy=\"24\" r=\"5\" fill=\"{colour}\"/>");
        _ = writeln!(svg, "<text x=\"{}\" y=\"29\">{name}</text>", x + 12.0);
    }
}

/// A power of ten of nanoseconds in its usual unit.
fn duration(nanoseconds: f64) -> String {
    match nanoseconds {
        n if n < 1e3 => format!("{n} ns"),
        n if n < 1e6 => format!("{} µs", n / 1e3),
        n if n < 1e9 => format!("{} ms", n / 1e6),
        n => format!("{} s", n / 1e9),
    }
}
