//! Jobs from dumps.

use crate::{message, scratch, text, written, TEXT};
use scope_deps::{limits, Job};
use std::fs;
use std::process::Command;

/// What a program prints of these bytes, or nothing where there is no such program.
fn dumped(program: &str, words: &[&str], bytes: &[u8]) -> Option<String> {
    let file = scratch("dumped.bin");
    fs::write(&file, bytes).unwrap();
    let output = Command::new(program).args(words).arg(file).output().ok()?;
    output.status.success().then(|| String::from_utf8(output.stdout).unwrap())
}

#[test]
fn dumps_are_read() {
    let zeros = format!("scope 7 block 7 assumes {} candidate 1", vec!["0"; 40].join(", "));
    let spaces = "scope 538976288 block 538976288 candidate 538976288@538976288, 2088533116";
    for job in [TEXT, &zeros, spaces] {
        let (bytes, back) = (written(&["encode"], job), job.parse::<Job>().unwrap().to_string());
        let dumps = [
            ("xxd", &[][..]),
            ("xxd", &["-p"]),
            ("xxd", &["-g1", "-u"]),
            ("xxd", &["-c", "7"]),
            ("hexdump", &["-C"]),
        ];
        for (program, words) in dumps {
            let Some(dump) = dumped(program, words, &bytes) else { continue };
            assert_eq!(text(&["decode", "--from", "hex"], &dump), back, "{program} {words:?}\n{dump}");
        }
    }
}

#[test]
fn dumps_as_they_are_printed() {
    let bytes = "scope 7 block 7 assumes 0, 0, 0, 0, 0 candidate 1";
    let xxd = "00000000: 4844 0100 0000 7c7c 2020 424c 7c7c 2020  HD....||  BL||  \n\
               00000010: 0000 00                                  ...\n";
    let back = "scope 538999932\nblock 538999932\n";
    assert_eq!(text(&["decode", "--from", "hex"], xxd), back);
    assert_eq!(text(&["decode", "--from", "hex"], "48440100 00007c7c\n2020424c 7c7c2020/0000/00"), back);
    let hexdump = "00000000  48 44 01 00 00 00 7c 7c  20 20 42 4c 7c 7c 20 20  |HD....||  BL||  |\n\
                   00000010  00 00 00                                          |...|\n00000013\n";
    assert_eq!(text(&["decode", "--from", "hex"], hexdump), back);
    // A line that is like the one before is left out, and `*` stands for it.
    let encoded = written(&["encode"], bytes);
    let line = |at: usize, from: &[u8]| {
        let digits: String = from.iter().map(|byte| format!("{byte:02x} ")).collect();
        format!("{at:08x}  {digits} |{}|\n", ".".repeat(from.len()))
    };
    let (head, path) = (&encoded[..19], &encoded[19..31]);
    let dump =
        [line(0, head), line(19, path), "*\n".into(), line(79, &encoded[79..]), "0000005b\n".into()].concat();
    assert_eq!(written(&["encode"], text(&["decode", "--from", "hex"], dump)), encoded);
}

#[test]
fn a_dump_that_is_none_is_told_with_its_line() {
    let said = |dump: &str| message(&["decode", "--from", "hex"], dump, 1);
    assert!(said("48 44\n0").contains("line 2: `0` has an odd number of hexadecimal digits"));
    assert!(said("48\nzz").contains("line 2: `z` is no hexadecimal digit"));
    assert!(said("00000000: 4844  HD\n00000010: 00")
        .contains("line 2 has the offset 00000010, but the lines before it come to 00000002"));
    assert!(said("00000000: 4844  HD\nBL").contains("line 2 has no offset"));
    assert!(
        said("00000000  48 44  |HD|\n*\nffffffff\n").contains("line 3 has an offset of more than 16777216")
    );
    assert!(said(&"00".repeat(limits::JOB_BYTES + 1))
        .contains("refusal 2, LongJob: the job has more than 32,768"));
    for other in ["0000000 110 104 001 000\n0000004\n", "0000000 4448 0001\n", "000000 48 44 01 00\n000004\n"]
    {
        assert!(said(other).contains("use `hexdump -C` or `xxd`"), "{other}");
    }
}
