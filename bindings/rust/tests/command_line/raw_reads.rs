//! Raw reads: in text and in bytes, in messages, and in what is explained and drawn.

use crate::common::hex;
use crate::{message, text, written};

const TEXT: &str = "name 1 athlete\nscope 7\nblock 7\n  \
    reads reactive athlete@4.10@5 at 3 range 1 to 2 scope 5 to 9 immutable\n  \
    reads 2 at 3 range 0 to 2 no scope 4 to 9\n  assumes 6\ncandidate athlete.10.11\n";

const BYTES: &str = "4844 0100 0100 07000000 / 424C 07000000 00 01 02 /
    5244 03000000 01000000 02000000 01 05000000 09000000 01 / 01000000 01 04000000 01 00 00 0A00000000000000 05000000 /
    5244 03000000 00000000 02000000 00 04000000 09000000 00 / 02000000 00 00000000 00 /
    5041 06000000 00 00000000 00 /
    4341 01000000 00 00000000 02 00 00 0A00000000000000 00000000 00 00 0B00000000000000 00000000";

#[test]
fn they_go_from_text_to_bytes_and_back() {
    assert_eq!(written(&["encode"], TEXT), hex(BYTES));
    let back = TEXT.replace("name 1 athlete\n", "").replace("athlete", "1");
    assert_eq!(text(&["decode"], hex(BYTES)), back);
    assert_eq!(text(&["decode", "--from", "hex"], BYTES), back);
    assert_eq!(text(&["decode", "--from", "text"], TEXT), TEXT);
    assert_eq!(text(&["thin"], TEXT), TEXT);
    assert_eq!(written(&["thin", "--bytes"], TEXT), hex(BYTES));
}

/// Where the range of the first read starts.
const START: usize = 25;

#[test]
fn the_largest_range_start_is_refused_with_its_place() {
    let mut bytes = hex(BYTES);
    bytes[START..START + 4].fill(0xff);
    let refusal = "scope-deps: standard input: refusal 10, LargestStart: a range start is 4,294,967,295, where start + 1 \
                   would not fit; at byte 25, in RD record 1 of BL record 1: the range's start (0 to 4294967294); \
                   block 7 says that it has 2 raw reads (byte 18)\n";
    for words in [
        &["decode"][..],
        &["answer"],
        &["sheet", "--strict"],
        &["thin"],
        &["thin", "--bytes"],
        &["explain"],
        &["draw"],
    ] {
        assert_eq!(message(words, &bytes, 1), refusal, "{words:?}");
    }
    let said = message(&["encode"], TEXT.replace("range 1 to", "range 4294967295 to"), 1);
    let excerpt = "4 |   reads reactive athlete@4.10@5 at 3 range 4294967295 to 2 scope 5 to 9 immutable";
    let place = "standard input:4:44: the range's start, to which 1 is added, is at most 4294967294, and 4294967295 is more";
    assert_eq!(said, format!("scope-deps: {place}\n{excerpt}\n  | {}^\n", " ".repeat(43)));
}

#[test]
fn reads_after_assumed_paths_are_told_with_their_place() {
    let said = message(&["answer"], "scope 7\nblock 7 assumes 1\n  reads 1 at 3 range 0 to 1\n", 1);
    assert_eq!(
        said,
        "scope-deps: standard input:3:3: what a block reads stands before what it assumes\n\
         3 |   reads 1 at 3 range 0 to 1\n  |   ^\n"
    );
}

#[test]
fn they_count_where_they_are_kept() {
    let job = |rest: &str| format!("scope 0 block 0 reads 1 at 3 range 0 to 2 {rest} candidate 1.10");
    let [kept, dropped] = ["rounds 1, settled\nreturned 1.10\n", "rounds 1, settled\nreturned 1\n"];
    assert_eq!(text(&["answer"], job("scope 0 to 9")), dropped);
    for rest in ["", "scope 0 to 3", "scope 4 to 9", "no scope 0 to 9", "scope 0 to 9 immutable"] {
        assert_eq!(text(&["answer"], job(rest)), kept, "{rest}");
        assert_eq!(text(&["answer", "--strict"], job(rest)), kept, "{rest}");
    }
    assert!(text(&["sheet"], job("scope 0 to 9")).ends_with("\nblock 0 holds nothing\n"));
    assert!(text(&["explain"], job("scope 0 to 9"))
        .contains("block 0 reads a property of 1 at instruction 3, but 1 counts as mutable there: "));
    assert!(text(&["explain"], job("")).contains("; block 0 reads a property of it at instruction 3\n"));
    assert!(text(&["draw"], job("scope 0 to 9")).contains("<tspan class=\"label\">not kept</tspan>"));
}
