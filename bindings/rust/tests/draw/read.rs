//! The parts of a picture, read from its text.

use scope_deps::{answer, draw, sheet, strict_answer, strict_sheet, Job};

/// The picture of all blocks, where the job is not refused.
pub fn whole(job: &Job) -> Option<Picture> {
    Some(Picture(draw::draw(job, &sheet(job).ok()?, &answer(job).ok()?).unwrap()))
}

/// The picture of the blocks that matter.
pub fn focused(job: &Job) -> Option<Picture> {
    Some(Picture(draw::draw_focused(job, &sheet(job).ok()?, &answer(job).ok()?).unwrap()))
}

/// The picture of all blocks by the strict propagation.
pub fn strict(job: &Job) -> Option<Picture> {
    Some(Picture(draw::draw_strict(job, &strict_sheet(job).ok()?, &strict_answer(job).ok()?).unwrap()))
}

/// The picture of the blocks that matter by the strict propagation.
pub fn focused_strict(job: &Job) -> Option<Picture> {
    let (sheet, answer) = (strict_sheet(job).ok()?, strict_answer(job).ok()?);
    Some(Picture(draw::draw_focused_strict(job, &sheet, &answer).unwrap()))
}

/// The picture of a job as text.
pub fn of_text(job: &str) -> Picture {
    whole(&job.parse().unwrap()).unwrap()
}

pub struct Picture(pub String);

/// An arrow: its first class, the blocks at whose pointing it is lit, by place in the job, its line
/// and its title.
pub struct Arrow<'p> {
    pub class: &'p str,
    pub ends: Vec<usize>,
    pub line: &'p str,
    pub title: &'p str,
}

/// The group of a block: its place in the job, and its lines in the file.
pub struct Group<'p> {
    pub block: usize,
    pub lines: Vec<&'p str>,
}

/// The value of an attribute in a tag.
pub fn attribute<'t>(tag: &'t str, name: &str) -> &'t str {
    let start =
        tag.find(&format!(" {name}=\"")).unwrap_or_else(|| panic!("{name} in {tag}")) + name.len() + 3;
    &tag[start..start + tag[start..].find('"').unwrap()]
}

pub fn number_of(text: &str) -> f64 {
    text.parse().unwrap_or_else(|why| panic!("{text}: {why}"))
}

pub fn number(tag: &str, name: &str) -> f64 {
    number_of(attribute(tag, name))
}

/// Left, top, right and bottom of a rectangle.
pub fn sides(tag: &str) -> [f64; 4] {
    let (x, y) = (number(tag, "x"), number(tag, "y"));
    [x, y, x + number(tag, "width"), y + number(tag, "height")]
}

/// What a line of the file shows, without what it says under the pointer.
pub fn shown(line: &str) -> String {
    let line = line.split("<title>").enumerate().map(|(part, text)| match part {
        0 => text,
        _ => text.split_once("</title>").unwrap().1,
    });
    let tags: String = line.collect();
    let texts = tags.split('<').filter_map(|part| part.split_once('>'));
    let text: String = texts.map(|(_, text)| text).collect();
    text.replace("&gt;", ">").replace("&lt;", "<").replace("&amp;", "&")
}

/// What a line of the file says under the pointer.
pub fn title(line: &str) -> &str {
    line.split_once("<title>").map_or("", |(_, rest)| rest.split_once("</title>").unwrap().0)
}

impl Picture {
    pub fn lines(&self) -> impl Iterator<Item = &str> {
        self.0.lines()
    }

    /// The title over the blocks.
    pub fn title(&self) -> String {
        shown(self.lines().find(|line| line.contains("<tspan class=\"title\">")).unwrap())
    }

    pub fn style(&self) -> &str {
        self.0.split_once("<style>").unwrap().1.split_once("</style>").unwrap().0
    }

    /// The arrows but those of the legend, which have no title.
    pub fn arrows(&self) -> Vec<Arrow<'_>> {
        let tags = self.lines().filter(|line| line.starts_with("<path class=") && !title(line).is_empty());
        let arrow = |tag| {
            let mut classes = attribute(tag, "class").split(' ');
            let class = classes.next().unwrap();
            let ends = classes.map(|class| class.strip_prefix('a').unwrap().parse().unwrap()).collect();
            Arrow { class, ends, line: attribute(tag, "d"), title: title(tag) }
        };
        tags.map(arrow).collect()
    }

    /// The groups of the blocks.
    pub fn groups(&self) -> Vec<Group<'_>> {
        let starts = self.0.split("<g class=\"block b").skip(1);
        let groups = starts.map(|text| {
            let (block, rest) = text.split_once('"').unwrap();
            let lines = rest.split_once("</g>").unwrap().0.lines().skip(1).collect();
            Group { block: block.parse().unwrap(), lines }
        });
        groups.collect()
    }

    /// The boxes and the panel.
    pub fn rectangles(&self) -> Vec<[f64; 4]> {
        let classes = ["box", "scope", "panel"].map(|class| format!("<rect class=\"{class}\""));
        let tags = self.lines().filter(|line| classes.iter().any(|class| line.starts_with(class)));
        tags.map(sides).collect()
    }
}
