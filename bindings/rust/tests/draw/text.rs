//! What the boxes and the panel say: whole numbers, within their box.

use crate::common::jobs;
use crate::read::{number, of_text, shown, sides, title, whole, Group};
use scope_deps::{sheet, Block, Job, Sheet};

/// The width of a character, at most.
const CHARACTER: f64 = 7.32;

/// What the lines of a group show.
fn texts(group: &Group) -> Vec<String> {
    let texts = group.lines.iter().filter(|line| line.starts_with("<text"));
    texts.map(|line| shown(line)).filter(|text| !text.is_empty()).collect()
}

/// The only predecessor of a block with the same paths, and some.
fn same(block: &Block, sheet: &Sheet) -> Option<String> {
    let own: Vec<_> = sheet.paths(block.id()).collect();
    let only = block.predecessors().first().filter(|_| block.predecessors().len() == 1)?;
    let same = *only != block.id() && !own.is_empty() && own.into_iter().eq(sheet.paths(*only));
    same.then(|| format!("the same as block {only}"))
}

#[test]
fn a_block_says_that_it_holds_what_its_only_predecessor_holds() {
    let mut said = 0;
    for job in jobs(12, 400) {
        let Some(picture) = whole(&job) else { continue };
        let sheet = sheet(&job).unwrap();
        for (block, group) in job.blocks().iter().zip(picture.groups()) {
            let says = texts(&group).into_iter().find(|text| text.starts_with("the same as"));
            assert_eq!(says, same(block, &sheet), "block {} of {job}", block.id());
            said += usize::from(says.is_some());
        }
    }
    assert!(said > 100);
}

#[test]
fn instead_of_listing_them() {
    let picture = of_text("scope 2 block 0 assumes 5.10 block 1 after 0 block 2 after 1 assumes 6");
    let groups = picture.groups();
    assert_eq!(texts(&groups[0]), ["block 0", "assumes", "5.10", "holds", "5.10, 6"]);
    assert_eq!(texts(&groups[1]), ["block 1", "holds", "the same as block 0"]);
    assert_eq!(
        groups[1].lines.iter().map(|line| title(line)).collect::<String>(),
        "5.10, 6",
        "under the pointer"
    );
}

/// The paths of the job as a picture may show them: each between blanks, commas and bars.
fn known_words(job: &Job) -> Vec<String> {
    let assumed = job.blocks().iter().flat_map(|block| block.assumed());
    let reads = job.blocks().iter().flat_map(|block| block.raw_reads());
    let paths = assumed.chain(job.candidates()).chain(reads.clone().map(|read| &read.path));
    let read_at = reads.map(|read| read.instruction.to_string()).chain(["at".to_string()]);
    let words = paths.flat_map(|path| {
        let entries = path.entries().iter().map(|entry| format!("{entry:#}"));
        let plain = entries.clone().map(|entry| entry.replacen("?.[", "[", 1).replacen("?.", ".", 1));
        [path.identifier().to_string()].into_iter().chain(entries).chain(plain).collect::<Vec<_>>()
    });
    words.chain(read_at).collect()
}

/// The entries in a text, each from its `.`, `?.` or `[` on, and the variable before them.
fn words(text: &str) -> Vec<String> {
    let mut words: Vec<String> = Vec::new();
    let mut before = ' ';
    let mut in_brackets = false;
    for next in text.chars() {
        let starts = match next {
            '[' => before != '.',
            '.' => before != '?' && !in_brackets,
            '?' => true,
            _ => words.is_empty(),
        };
        if starts {
            words.push(String::new());
        }
        words.last_mut().unwrap().push(next);
        in_brackets = next == '[' || in_brackets && next != ']';
        before = next;
    }
    words
}

#[test]
fn every_number_that_is_shown_is_whole() {
    let mut long = 0;
    for job in jobs(13, 600) {
        let Some(picture) = whole(&job) else { continue };
        assert!(!picture.0.contains('…'));
        let known = known_words(&job);
        for group in picture.groups() {
            let paths = group.lines.iter().filter(|line| {
                line.starts_with("<text")
                    && !["head", "label"].iter().any(|class| line.contains(&format!("\"{class}\"")))
            });
            for line in paths {
                let text = shown(line).replace(['\u{a0}', '|'], "");
                let paths = text.split([',', ' ']).map(|path| path.trim_start_matches('+'));
                for word in paths.flat_map(words).filter(|word| !word.is_empty()) {
                    assert!(known.contains(&word), "{word} in {text} of {job}");
                    long += usize::from(word.len() > 15);
                }
            }
        }
    }
    assert!(long > 100, "{long}");
}

#[test]
fn every_text_lies_within_its_box() {
    for job in jobs(14, 400) {
        let Some(picture) = whole(&job) else { continue };
        for group in picture.groups() {
            let mut within = [0.0; 4];
            for line in &group.lines {
                if line.starts_with("<rect") {
                    within = sides(line);
                } else {
                    let (x, y) = (number(line, "x"), number(line, "y"));
                    let right = x + CHARACTER * shown(line).chars().count() as f64;
                    assert!(
                        x > within[0] && right < within[2] && y > within[1] && y < within[3],
                        "{line} of {job}"
                    );
                }
            }
        }
    }
}

#[test]
fn a_long_path_is_broken_at_an_entry() {
    let long = "4294967295?.18446744073709551615.18446744073709551614[1.7976931348623157e308]";
    let picture = of_text(&format!("scope 7 block 7 assumes 1, {long}, 2 candidate {long}.3"));
    let groups = picture.groups();
    let expected = [
        "1,",
        "4294967295?.18446744073709551615",
        "\u{a0}\u{a0}.18446744073709551614",
        "\u{a0}\u{a0}[1.7976931348623157e308],",
        "2",
    ];
    let texts = texts(&groups[0]);
    assert_eq!(texts[2..7], expected);
    assert!(texts.contains(&"\u{a0}\u{a0}[1.7976931348623157e308].3".to_string()), "{texts:?}");
}

#[test]
fn paths_are_shown_by_the_names_of_the_job() {
    let picture = of_text(
        "name 1 athlete name .10 lastSession name .11 beats scope 1 block 0 assumes athlete.lastSession
        block 1 after 0 candidate athlete?.lastSession[0].beats",
    );
    let groups = picture.groups();
    let first = ["block 0", "assumes", "athlete.lastSession", "holds", "athlete.lastSession"];
    assert_eq!(texts(&groups[0]), first);
    let candidate = ["athlete?.lastSession[0]|.beats", "athlete.lastSession[0]"];
    let scope = texts(&groups[1]);
    assert!(candidate.iter().all(|text| scope.contains(&text.to_string())), "{scope:?}");
    assert_eq!(
        title(groups[1].lines.iter().find(|line| line.contains("the same")).unwrap()),
        "athlete.lastSession"
    );
}
