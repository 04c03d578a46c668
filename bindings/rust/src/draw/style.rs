//! The style sheet of a picture: its colours, for a light and for a dark screen, and what happens
//! under the pointer.

/// What looks the same in light and in dark.
const SHAPES: &str = "\
text{font:12px 'DejaVu Sans Mono',Menlo,Consolas,monospace}\
.title{font-size:16px;font-weight:bold}\
.head,.knife,.returned{font-weight:bold}\
.cut{text-decoration:line-through}\
.scope{stroke-width:2}\
path{fill:none;stroke-width:1.3}\
.loop{stroke-width:1.5;stroke-dasharray:6 4}\
.left-out{stroke-dasharray:4 4}\
.block{outline:none}";

/// What has a colour: its selector, the property, the colour on a light screen and that on a dark
/// one.
type Colour = (&'static str, &'static str, &'static str, &'static str);

const COLOURS: [Colour; 19] = [
    (".page", "fill", "#ffffff", "#12171e"),
    ("text", "fill", "#1f2933", "#e4e9f0"),
    (".label", "fill", "#5a6572", "#a3afbd"),
    (".assumed", "fill", "#1a4fb4", "#8ab4ff"),
    (".added", "fill", "#7b2cb0", "#d9a8ff"),
    (".cut,.knife", "fill", "#c01c1c", "#ff9389"),
    (".covered", "fill", "#66717d", "#98a4b2"),
    (".returned", "fill", "#046c4e", "#5fd3a6"),
    (".box", "fill", "#f7f9fc", "#1d2530"),
    (".box", "stroke", "#8492a6", "#66768a"),
    (".scope", "fill", "#fff3d1", "#3a2f12"),
    (".scope", "stroke", "#a86b00", "#e0a93a"),
    (".panel", "fill", "#fffbf0", "#292416"),
    (".panel", "stroke", "#d9b765", "#8a7335"),
    (".arrow,.left-out", "stroke", "#5b6874", "#9aa8b8"),
    (".loop", "stroke", "#c2410c", "#ff9d5c"),
    (".plain-head", "fill", "#5b6874", "#9aa8b8"),
    (".loop-head", "fill", "#c2410c", "#ff9d5c"),
    // Around the picture, where the window is larger than it.
    ("svg", "background", "#ffffff", "#12171e"),
];

/// Under the pointer, or chosen by a click or by the keyboard.
const POINTED: &str = ":is(:hover,:focus)";

/// The whole style sheet, with a rule for each of these blocks, by place in the job.
pub(super) fn style(blocks: impl Iterator<Item = usize>) -> String {
    let rules = |colour: fn(&Colour) -> &'static str| -> String {
        COLOURS.iter().map(|of| format!("{}{{{}:{}}}", of.0, of.1, colour(of))).collect()
    };
    let (light, dark) = (rules(|of| of.2), rules(|of| of.3));
    format!("{SHAPES}{light}@media (prefers-color-scheme:dark){{{dark}}}{}", pointed(blocks))
}

/// A block that is pointed at dims all arrows, and then lights its own: those are of its class. The
/// arrows stand after the blocks, so that a rule for what follows the block finds them.
fn pointed(blocks: impl Iterator<Item = usize>) -> String {
    let dims =
        format!(".block{POINTED}>rect{{stroke-width:2.6}}.block{POINTED}~path{{opacity:.2;stroke-width:.8}}");
    let lights = blocks.map(|block| {
        format!(".{}{POINTED}~.{}{{opacity:1;stroke-width:2}}", of_block(block), at_block(block))
    });
    lights.fold(dims, |rules, rule| rules + &rule)
}

/// The class of a block alone.
pub(super) fn of_block(block: usize) -> String {
    format!("b{block}")
}

/// The class of the arrows from a block and to it.
pub(super) fn at_block(block: usize) -> String {
    format!("a{block}")
}
