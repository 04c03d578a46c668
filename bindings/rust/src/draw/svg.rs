//! The text of an SVG file.

use std::fmt::Write;

/// Sizes of text.
pub(super) const SMALL: f64 = 12.0;
pub(super) const LARGE: f64 = 16.0;

const MARKERS: &str = "<defs>\
<marker id=\"plain\" viewBox=\"0 0 10 10\" refX=\"9\" refY=\"5\" markerWidth=\"8\" markerHeight=\"8\" orient=\"auto-start-reverse\">\
<path class=\"plain-head\" d=\"M0 0L10 5L0 10z\"/></marker>\
<marker id=\"loop\" viewBox=\"0 0 10 10\" refX=\"9\" refY=\"5\" markerWidth=\"8\" markerHeight=\"8\" orient=\"auto-start-reverse\">\
<path class=\"loop-head\" d=\"M0 0L10 5L0 10z\"/></marker></defs>";

/// What an arrow stands for.
#[derive(Clone, Copy, PartialEq, Eq)]
pub(super) enum Look {
    /// Control.
    Control,
    /// Control that closes a loop.
    Loop,
    /// Control by way of blocks that are left out.
    LeftOut,
}

/// At which end of a line the arrowhead is.
#[derive(Clone, Copy, PartialEq, Eq)]
pub(super) enum Head {
    First,
    Last,
    None,
}

/// An arrow as it is drawn, or a part of one.
pub(super) struct Stroke {
    pub(super) look: Look,
    pub(super) head: Head,
    pub(super) faint: bool,
    /// Classes besides that of its look, with a blank before each.
    pub(super) classes: String,
    pub(super) line: String,
    /// What it says under the pointer.
    pub(super) full: String,
}

/// What was drawn so far.
pub(super) struct Svg {
    body: String,
}

/// About how wide a text is.
pub(super) fn width(text: &str, size: f64) -> f64 {
    text.chars().count() as f64 * size * 0.61
}

/// The number with one decimal, or none where that is 0.
pub(super) fn short(number: f64) -> String {
    let tenths = (number * 10.0).round();
    // A number next to 0 would have a sign.
    (if tenths == 0.0 { 0.0 } else { tenths / 10.0 }).to_string()
}

impl Svg {
    pub(super) fn new() -> Self {
        Self { body: String::new() }
    }

    fn line(&mut self, line: std::fmt::Arguments) {
        writeln!(self.body, "{line}").expect("a string takes all text");
    }

    /// A text of one class.
    pub(super) fn text(&mut self, x: f64, y: f64, class: &str, text: &str) {
        self.texts(x, y, &[(class, text)], "");
    }

    /// A text of parts of different classes, with a full text under the pointer where that is not
    /// empty.
    pub(super) fn texts(&mut self, x: f64, y: f64, parts: &[(&str, &str)], full: &str) {
        let spans: String = parts.iter().map(|(class, part)| tspan(class, part)).collect();
        let (x, y) = (short(x), short(y));
        self.line(format_args!("<text x=\"{x}\" y=\"{y}\">{}{spans}</text>", title(full)));
    }

    pub(super) fn rectangle(&mut self, x: f64, y: f64, width: f64, height: f64, class: &str) {
        let [x, y, width, height] = [x, y, width, height].map(short);
        self.line(format_args!(
            "<rect class=\"{class}\" x=\"{x}\" y=\"{y}\" width=\"{width}\" height=\"{height}\" rx=\"5\"/>"
        ));
    }

    /// Starts a group with these attributes, each with a blank before it.
    pub(super) fn open(&mut self, attributes: &str) {
        self.line(format_args!("<g{attributes}>"));
    }

    /// Ends the group.
    pub(super) fn close(&mut self) {
        self.line(format_args!("</g>"));
    }

    /// A line, with an arrowhead or without.
    pub(super) fn arrow(&mut self, arrow: &Stroke) {
        let Stroke { look, head, faint, classes, line, full } = arrow;
        let (class, marker) = match look {
            Look::Control => ("arrow", "plain"),
            Look::Loop => ("loop", "loop"),
            Look::LeftOut => ("left-out", "plain"),
        };
        let head = match head {
            Head::First => format!(" marker-start=\"url(#{marker})\""),
            Head::Last => format!(" marker-end=\"url(#{marker})\""),
            Head::None => String::new(),
        };
        let faint = if *faint { " opacity=\"0.3\"" } else { "" };
        self.line(format_args!(
            "<path class=\"{class}{classes}\"{faint}{head} d=\"{line}\">{}</path>",
            title(full)
        ));
    }

    /// The whole file with this style sheet: all that was drawn, moved by so much.
    pub(super) fn file(
        self,
        style: &str,
        title_text: &str,
        [width, height]: [f64; 2],
        [right, down]: [f64; 2],
    ) -> String {
        format!(
            "<svg xmlns=\"http://www.w3.org/2000/svg\" role=\"graphics-document\" width=\"{width:.0}\" height=\"{height:.0}\" \
             viewBox=\"0 0 {width:.0} {height:.0}\">\n{}<style>{style}</style>\n{MARKERS}\n\
             <rect class=\"page\" width=\"100%\" height=\"100%\"/>\n<g transform=\"translate({right} {down})\">\n{}</g>\n</svg>\n",
            title(title_text),
            self.body
        )
    }
}

fn tspan(class: &str, text: &str) -> String {
    match (class, text) {
        (_, "") => String::new(),
        ("", text) => escaped(text),
        (class, text) => format!("<tspan class=\"{class}\">{}</tspan>", escaped(text)),
    }
}

fn title(text: &str) -> String {
    match text {
        "" => String::new(),
        text => format!("<title>{}</title>", escaped(text)),
    }
}

fn escaped(text: &str) -> String {
    text.replace('&', "&amp;").replace('<', "&lt;").replace('>', "&gt;")
}
