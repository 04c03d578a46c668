//! The notation: round trips, the specification's examples, and errors with their places.

mod common;

use common::{generated, jobs};
use scope_deps::{answer, sheet, BlockId, Job, Path, Property, RawRead, ReadScope};

#[test]
fn text_and_job_turn_into_each_other_without_loss() {
    let mut count = 0;
    for job in jobs(4, 8_000) {
        let text = job.to_string();
        assert_eq!(text.parse::<Job>().as_ref(), Ok(&job), "{text}");
        count += 1;
    }
    assert!(count > 4_000, "{count}");
}

#[test]
fn numbers_of_all_bits_are_read_back() {
    let special = [0, 1, 5, 1 << 63, 0x7ff0 << 48, 0xfff0 << 48, 0x7ff8 << 48, 0xfff8 << 48, u64::MAX];
    let whole = [1.0, -2.0, 1.5, 0.1, 1e20, 1e21, 1e300, -1e-300, f64::MAX, f64::MIN_POSITIVE];
    let drawn = generated(5, 200).flat_map(|bytes| {
        bytes.chunks_exact(8).map(|chunk| u64::from_le_bytes(chunk.try_into().unwrap())).collect::<Vec<_>>()
    });
    for bits in special.into_iter().chain(whole.map(f64::to_bits)).chain(drawn) {
        let text = format!("7{}", Property::Number(bits));
        let path: Path = text.parse().unwrap();
        assert_eq!(path.entries()[0].property, Property::Number(bits), "{text}");
        assert!(text.len() < 30, "{text}");
    }
}

#[test]
fn numbers_are_shown_as_a_person_would_write_them() {
    let shown = |text: &str| text.parse::<Path>().unwrap().to_string();
    for text in
        ["1[0]", "1[-0]", "1[1.5]", "1?.[-7]", "1[1e300]", "1[NaN]", "1[-Infinity]", "1[0x5]", "1.5[5]"]
    {
        assert_eq!(shown(text), text);
    }
    assert_eq!(shown("1[1e3]"), "1[1000]");
    assert_eq!(shown("1[0x3ff0000000000000]"), "1[1]");
    assert_eq!(shown(" reactive 1@0.2@3 # a comment"), "reactive 1.2@3");
}

/// The paths returned for block 7, which assumes the first paths, and for these candidates.
fn returned(assumed: &str, candidates: &str) -> String {
    let assumes = if assumed.is_empty() { String::new() } else { format!("assumes {assumed}") };
    let job = format!("scope 7 block 7 {assumes} candidate {candidates}").parse::<Job>().unwrap();
    let paths: Vec<String> = answer(&job).unwrap().iter().map(|path| format!("{path:#}")).collect();
    paths.join(", ")
}

#[test]
fn the_specifications_trees() {
    assert_eq!(returned("1", "1.10.11"), "1.10");
    assert_eq!(returned("1", "1?.10"), "1.10");
    assert_eq!(returned("", "1.10"), "1");
    assert_eq!(returned("", "1?.10.11"), "1?.10");
    assert_eq!(returned("1?.10", "1?.10.11"), "1?.10.11");
    assert_eq!(returned("1?.10", "1?.10, 1.10"), "1");
    assert_eq!(returned("1", "1.11, 1.10"), "1.11, 1.10");
    assert_eq!(returned("1.10", "1.10.11, 1.10"), "1.10");
}

/// What each block holds, and the rounds.
fn held(job: &str) -> (Vec<String>, u8) {
    let sheet = sheet(&job.parse().unwrap()).unwrap();
    let of = |id| sheet.paths(id).map(|path| format!("{path:#}")).collect::<Vec<_>>().join(", ");
    (sheet.sets().map(|(id, _)| of(id)).collect(), sheet.rounds())
}

#[test]
fn the_specifications_reductions_and_graphs() {
    assert_eq!(held("scope 7 block 7 assumes 1, 1?.10?.11").0, ["1, 1.10?.11"]);
    assert_eq!(held("scope 7 block 7 assumes 1, 1.10, 1?.10?.11").0, ["1, 1.10, 1.10.11"]);
    let both = "scope 3 block 0 block 1 after 0 assumes 5 block 2 after 0 assumes 5 block 3 after 1, 2";
    assert_eq!(held(both), (["5"; 4].map(String::from).to_vec(), 2));
    let one = "scope 3 block 0 block 1 after 0 assumes 5 block 2 after 0 block 3 after 1, 2";
    assert_eq!(held(one), (["", "5", "", ""].map(String::from).to_vec(), 1));
    let looping =
        "scope 3 block 0 block 1 after 0, 3 block 2 after 1 assumes 5 block 3 after 1, 2 block 4 after 1";
    assert_eq!(held(looping).0, ["", "", "5", "5", ""]);
}

#[test]
fn a_text_is_free_in_its_lines_and_comments() {
    let wide = "# a job\nscope 7\n\n\tblock 7 # the scope\n  after 7,\n 8\n assumes 1.2, 3\n assumes 4\n\
                block 8\ncandidate 5,6\r\ncandidate 7";
    let job: Job = wide.parse().unwrap();
    let text = "scope 7\nblock 7 after 7, 8\n  assumes 1.2\n  assumes 3\n  assumes 4\nblock 8\n\
                candidate 5\ncandidate 6\ncandidate 7\n";
    assert_eq!(job.to_string(), text);
    assert_eq!(job.place_of(BlockId(8)), Some(1));
}

#[test]
fn raw_reads_stand_between_predecessors_and_assumed_paths() {
    let text = "name 5 athlete\nname .10 lastSession\nscope 1\nblock 0\nblock 1 after 0\n  \
                reads athlete.lastSession at 3 range 0 to 2 scope 0 to 9\n  \
                reads reactive athlete@7?.lastSession at 3 range 0 to 2 scope 0 to 9 immutable\n  \
                reads athlete at 3 range 0 to 1\n  \
                reads 6 at 4294967295 range 4294967294 to 0 no scope 4 to 9\n  \
                reads 6[0] at 0 range 0 to 0 no scope 0 to 1 immutable\n  \
                assumes athlete\n";
    let job: Job = text.parse().unwrap();
    assert_eq!(job.to_string(), text);
    assert_eq!(Job::from_bytes(job.as_bytes()).unwrap().named(job.names().clone()).to_string(), text);
    let reads = job.blocks()[1].raw_reads();
    assert_eq!(reads.iter().map(RawRead::is_kept).collect::<Vec<_>>(), [false, true, true, true, true]);
    assert_eq!(reads[3].scope, ReadScope::None { start: 4, end: 9 });
    assert_eq!((reads[3].instruction, reads[3].range_start, reads[3].range_end), (u32::MAX, u32::MAX - 1, 0));
    let wide = "scope 0 block 0 reads 1\n at # the instruction\n3 range 0\nto 2 no scope 0 to 0 immutable reads 2 at 1\n\
                range 0 to 1 scope 0 to 0";
    let narrow =
        "scope 0\nblock 0\n  reads 1 at 3 range 0 to 2 immutable\n  reads 2 at 1 range 0 to 1 scope 0 to 0\n";
    assert_eq!(wide.parse::<Job>().unwrap().to_string(), narrow);
}

#[test]
fn a_raw_read_is_read_by_itself_and_with_names() {
    let text = "reactive 5@7?.10 at 3 range 0 to 2 scope 0 to 9 immutable";
    let read: RawRead = text.parse().unwrap();
    assert_eq!(read.to_string(), text);
    assert_eq!(format!("{read:#}"), "5?.10 at 3 range 0 to 2 scope 0 to 9 immutable");
    let wrong = |text: &str| {
        let error = text.parse::<RawRead>().unwrap_err();
        (error.column(), error.message().to_string())
    };
    let end = "`scope`, `no scope`, `immutable` or the end of the read is due here, not `x`";
    assert_eq!(wrong("5 at 3 range 0 to 1 x"), (21, end.to_string()));
    let end = "`immutable` or the end of the read is due here, not `x`";
    assert_eq!(wrong("5 at 3 range 0 to 1 scope 0 to 1 x"), (34, end.to_string()));
    let end = "the end of the read is due here, not `scope`";
    assert_eq!(wrong("5 at 3 range 0 to 1 immutable scope 0 to 1"), (31, end.to_string()));
}

#[test]
fn a_raw_read_that_is_none_is_refused_where_it_goes_wrong() {
    let read = |rest: &str, column, message: &str| {
        wrong(&format!("scope 0 block 0 reads {rest}"), 1, column, message)
    };
    let variable = "a path's variable is due here: a number, or a name given before, which `at` is not";
    read("at 3", 23, variable);
    read("5", 24, "`at` and the number of the instruction are due here, not the end of the text");
    read("5, 6", 24, "`at` and the number of the instruction are due here, not `,`");
    read("5 at range", 28, "the number of the instruction is due here, not `range`");
    read("5 at 3", 29, "`range` and the start of the variable's range are due here, not the end of the text");
    read(
        "5 at 3 scope 0 to 9",
        30,
        "`range` and the start of the variable's range are due here, not `scope`",
    );
    read("5 at 3 range 0", 37, "`to` and the range's end are due here, not the end of the text");
    read("5 at 3 range 0 to x", 41, "the range's end is due here, not `x`");
    read("5 at 3 range 0 to 1 no", 45, "`scope` is due here, not the end of the text");
    read("5 at 3 range 0 to 1 scope 0 1", 51, "`to` and the scope's end are due here, not `1`");
    let nothing = "where the variable has no scope, nothing is written";
    read("5 at 3 range 0 to 1 no scope", 51, nothing);
    read("5 at 3 range 0 to 1 scope none", 49, nothing);
    let largest = "the range's start, to which 1 is added, is at most 4294967294, and 4294967295 is more";
    read("5 at 3 range 4294967295 to 4294967295", 36, largest);
    read(
        "5 at 4294967296",
        28,
        "the number of the instruction is at most 4294967295, and 4294967296 is more",
    );
}

/// That the text is refused at this line and column with this message.
fn wrong(text: &str, line: usize, column: usize, message: &str) {
    let error = text.parse::<Job>().unwrap_err();
    assert_eq!((error.line(), error.column(), error.message()), (line, column, message), "{text}");
}

#[test]
fn a_text_that_is_no_job_is_refused_where_it_goes_wrong() {
    let scope = "`name`, or `scope` and the scope block's id, is due here, not the end of the text";
    wrong("", 1, 1, scope);
    wrong("# no job\n", 2, 1, scope);
    wrong("scope\nblok", 2, 1, "the scope block's id is due here, not `blok`");
    wrong("scope 7 blok 7", 1, 9, "`name`, or `block` and a block's id, is due here, not `blok`");
    wrong("scope 7\nblock 7 after", 2, 14, "a predecessor's id is due here, not the end of the text");
    let once = "a block's predecessors stand in one list, right after its id";
    wrong("scope 7\nblock 7 assumes 1 after 7", 2, 19, once);
    wrong("scope 7\nblock 7 after 7 after 8", 2, 17, once);
    wrong("scope 7\nblock 7 reads 1 at 3 range 0 to 1 after 7", 2, 35, once);
    let before = "what a block reads stands before what it assumes";
    wrong("scope 7\nblock 7 assumes 1\n  reads 1 at 3 range 0 to 1", 3, 3, before);
    wrong("scope 7 block 7 assumes 1?10", 1, 26, "after `?` there is a `.`, as in `1?.10` or `1?.[0]`");
    wrong("scope 7 block 7 assumes 1.[0]", 1, 27, "a number read plainly has no dot before it: `1[0]`");
    wrong(
        "scope 7 block 7 assumes 1.x",
        1,
        27,
        "a property's name is due here: a number, or a name given before, which `x` is not",
    );
    wrong("scope 7 block 7 assumes 1[0", 1, 28, "`]` is due here, not the end of the text");
    wrong(
        "scope 7 block 7 assumes 1[1e999]",
        1,
        27,
        "1e999 is too large for a number; Infinity is written so",
    );
    wrong("scope 7 block 7 assumes 1[0x+1]", 1, 27, "`0x+1` is no 64 bits in hexadecimal digits");
    wrong("scope 7 block 7 assumes 1[inf]", 1, 27, "`inf` is no number");
    wrong("scope 4294967296", 1, 7, "the scope block's id is at most 4294967295, and 4294967296 is more");
    wrong("scope 7 block 7 assumes 1@", 1, 27, "a span is due here, not the end of the text");
}

#[test]
fn only_what_may_stand_there_is_offered() {
    let offered = |text: &str, column, words: &str| {
        let (found, end) =
            (&text[column - 1..], "`candidate`, `name` or the end of the job is due here, not");
        wrong(text, 1, column, &format!("{words}{end} `{found}`"));
    };
    let [first, reads] = ["`after`, `reads`, `assumes`, `block`, ", "`reads`, `assumes`, `block`, "];
    offered("scope 3 block 3, 4".strip_suffix(" 4").unwrap(), 16, first);
    offered("scope 3 block 3 7", 17, first);
    offered("scope 3 block 3 after 3 7", 25, &format!("`,`, {reads}"));
    let rest = format!("`scope`, `no scope`, `immutable`, {reads}");
    offered("scope 3 block 3 reads 1 at 3 range 0 to 1 7", 43, &rest);
    offered("scope 3 block 3 reads 1 at 3 range 0 to 1 scope 0 to 1 7", 56, &format!("`immutable`, {reads}"));
    offered("scope 3 block 3 reads 1 at 3 range 0 to 1 immutable 7", 53, reads);
    offered("scope 3 block 3 assumes 1 7", 27, "`,`, `assumes`, `block`, ");
    offered("scope 3 block 3 after 3 assumes 1, 2 7", 38, "`,`, `assumes`, `block`, ");
    offered("scope 3 block 3 name 1 x 7", 26, "`block`, ");
    offered("scope 3 block 3 candidate 1 7", 29, "`,`, ");
    offered("scope 3 block 3 candidate 1 block", 29, "`,`, ");
    offered("scope 3 block 3 candidate 1 name 1 x assumes", 38, "");
    wrong("scope 3 block 3 after", 1, 22, "a predecessor's id is due here, not the end of the text");
    let variable = "a path's variable is due here";
    wrong("scope 3 block 3 assumes", 1, 24, &format!("{variable}, not the end of the text"));
    let names = format!("{variable}: a number, or a name given before, which `block` is not");
    wrong("scope 3 block 3 assumes block 4", 1, 25, &names);
}

#[test]
fn long_words_and_lines_are_cut_in_messages() {
    let word = "x".repeat(1 << 20);
    let text = format!("scope 3 block 3 {word}");
    let error = text.parse::<Job>().unwrap_err();
    assert!(error.message().ends_with(&format!("not `{}..`", "x".repeat(40))), "{error}");
    let excerpt = error.excerpt(&text);
    assert_eq!(excerpt, format!("1 | scope 3 block 3 {}..\n  |                 ^", "x".repeat(40)));

    let before = "assumes 1 ".repeat(20);
    let text = format!("scope 3\nblock 3 {before}oops {}", "é".repeat(300));
    let error = text.parse::<Job>().unwrap_err();
    assert_eq!((error.line(), error.column()), (2, 209));
    let excerpt = error.excerpt(&text);
    let lines: Vec<&str> = excerpt.lines().collect();
    assert_eq!(lines[0], format!("2 | ..{}oops {}..", &before[140..], "é".repeat(35)));
    assert_eq!(lines[1].find('^'), lines[0].find("oops"));

    let digits = "9".repeat(100_000);
    wrong(
        &format!("scope {digits}"),
        1,
        7,
        &format!("the scope block's id is at most 4294967295, and {}.. is more", "9".repeat(40)),
    );
    assert!(format!("1[{digits}x]").parse::<Path>().unwrap_err().to_string().len() < 100);
}

#[test]
fn what_a_terminal_would_obey_is_not_in_an_excerpt() {
    let text = "scope 3 \u{1b}[31m";
    let error = text.parse::<Job>().unwrap_err();
    assert!(error.message().ends_with("not U+001B"), "{error}");
    assert_eq!(error.excerpt(text), "1 | scope 3 \u{fffd}[31m\n  |         ^");
}

#[test]
fn a_byte_order_mark_is_named() {
    let error = "\u{feff}scope 7 block 7".parse::<Job>().unwrap_err();
    assert!(error.message().ends_with("not a byte-order mark (U+FEFF); a text has none"), "{error}");
}

#[test]
fn parts_that_make_no_job_are_refused_where_they_stand() {
    wrong("scope 7\nblock 8", 1, 7, "the scope block 7 is no block of the job");
    wrong("scope 7\nblock 7\nblock 7", 3, 7, "two blocks have the id 7");
    wrong("scope 7\nblock 7 after 7, 7", 2, 18, "block 7 names predecessor 7 twice");
    wrong("scope 7\nblock 7 after 7,\n  9", 3, 3, "predecessor 9 of block 7 is no block of the job");
    let entries = ".1".repeat(17);
    wrong(&format!("scope 7 block 7 assumes 1{entries}"), 1, 58, "a path has at most 16 entries");
    let blocks: String = (0..129).map(|id| format!("block {id}\n")).collect();
    wrong(&format!("scope 0\n{blocks}"), 130, 7, "the job has 129 blocks, and at most 128 are allowed");
    wrong(
        &format!("scope 0 block 0{}", "\ncandidate 1".repeat(65)),
        66,
        11,
        "the job has 65 candidates, and at most 64 are allowed",
    );
    wrong(
        &format!("scope 0 block 0{}", "\nassumes 1".repeat(256)),
        257,
        9,
        "block 0 has 256 assumed paths, and at most 255 are allowed",
    );
    wrong(
        &format!("scope 0 block 0{}", "\nreads 1 at 3 range 0 to 1".repeat(256)),
        257,
        7,
        "block 0 has 256 raw reads, and at most 255 are allowed",
    );
    let long = format!("\nreads 1{} at 3 range 0 to 1", ".1".repeat(16));
    let error = format!("scope 0 block 0{}", long.repeat(200)).parse::<Job>().unwrap_err();
    assert_eq!((error.line(), error.column()), (128, 7), "{error}");
}
