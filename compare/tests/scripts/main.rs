//! The scripts: what each needs, when it makes or builds something, and what it says.

mod fake;

use fake::{Fake, Said};

const ARCHIVE: &str = "target/staticlib/libstage.a";

/// What a script wrote where all goes well and nothing is to be said.
fn quiet(said: Said) -> String {
    assert!(said.status == 0 && said.messages.is_empty(), "{said:?}");
    said.out
}

/// What a script wrote, with messages that have these parts in this order.
fn saying(said: Said, parts: &[&str]) -> String {
    assert_eq!(said.status, 0, "{said:?}");
    assert_parts(&said, parts);
    said.out
}

fn failing(said: Said, parts: &[&str]) {
    assert!(said.status == 1 && said.out.is_empty(), "{said:?}");
    assert_parts(&said, parts);
}

fn assert_parts(said: &Said, parts: &[&str]) {
    let mut rest = &said.messages[..];
    for part in parts {
        let (_, after) = rest.split_once(part).unwrap_or_else(|| panic!("no `{part}` in {said:?}"));
        rest = after;
    }
}

fn archive_of(fake: &Fake) -> String {
    format!("{}\n", fake.root.join(ARCHIVE).display())
}

#[test]
fn the_library_is_made_once_with_a_line_for_each_crate() {
    let fake = Fake::new("once");
    let first = "library: the stage's library is missing; proving it takes about ";
    let log = format!(" minutes from nothing (log: {})\n", fake.root.join("target/library.log").display());
    failing(fake.run("bin/library", &["--check"]), &[first, &log]);
    let progress =
        "library: proved leaf, 1 of 3\nlibrary: proved stage, 2 of 3\nlibrary: proved stage_c, 3 of 3\n";
    assert_eq!(saying(fake.run("bin/library", &[]), &[first, &log, progress]), archive_of(&fake));
    assert_eq!(fake.calls(), ["rt lib"]);
    assert!(fake.read("target/library.log").contains("fn leaf::f: proved"));
    let files = fake.files();
    assert_eq!(quiet(fake.run("bin/library", &[])), archive_of(&fake));
    assert_eq!(quiet(fake.run("bin/library", &["--check"])), archive_of(&fake));
    assert_eq!(fake.files(), files);
    assert!(fake.calls().is_empty());
}

#[test]
fn a_library_of_other_sources_is_seen_and_made_anew() {
    let fake = Fake::new("stale");
    saying(fake.run("bin/library", &[]), &[]);
    for (file, text) in [("crates/leaf/src/lib.rt", "edited\n"), ("crates/stage/specs/New.antt", "new\n")] {
        fake.calls();
        fake.write(file, text);
        failing(
            fake.run("bin/library", &["--check"]),
            &["library was made from other sources; proving it takes"],
        );
        saying(fake.run("bin/library", &[]), &["was made from other sources; "]);
        assert_eq!(fake.calls(), ["rt lib"]);
        quiet(fake.run("bin/library", &["--check"]));
    }
    assert_eq!(fake.read(ARCHIVE), "edited\nstage\n");
    // Neither is part of the library.
    fake.write("crates/other/src/lib.rt", "edited\n");
    fake.write("crates/leaf/must-fail/a.edit", "edit\n");
    quiet(fake.run("bin/library", &[]));
}

#[test]
fn a_library_by_another_toolchain_or_changed_later_is_seen() {
    let mut fake = Fake::new("changed");
    saying(fake.run("bin/library", &[]), &[]);
    fake.set("FAKE_KIT", "kit 2");
    failing(fake.run("bin/library", &["--check"]), &["was made by another toolchain, kit 1; "]);
    fake.unset("FAKE_KIT");
    quiet(fake.run("bin/library", &["--check"]));
    fake.write(ARCHIVE, "something else\n");
    failing(fake.run("bin/library", &["--check"]), &["was changed after library made it; "]);
}

#[test]
fn without_the_toolchain_a_library_is_used_but_none_is_made() {
    let mut fake = Fake::new("no-toolchain");
    saying(fake.run("bin/library", &[]), &[]);
    fake.without("rt");
    quiet(fake.run("bin/library", &[]));
    fake.write("crates/leaf/src/lib.rt", "edited\n");
    failing(
        fake.run("bin/library", &[]),
        &["was made from other sources, and rt, the toolchain's command, was not found"],
    );
}

#[test]
fn a_proof_that_fails_leaves_no_record() {
    let fake = Fake::new("unproved");
    fake.write("crates/leaf/src/lib.rt", "unproved\n");
    let log = fake.root.join("target/library.log").display().to_string();
    for _ in 0..2 {
        failing(
            fake.run("bin/library", &[]),
            &["fn leaf::f: no proof", "could not be made; the toolchain's log is ", &log],
        );
        assert_eq!(fake.calls(), ["rt lib"]);
    }
}

#[test]
fn sources_changed_meanwhile_are_no_sources_of_the_library() {
    let mut fake = Fake::new("meanwhile");
    fake.set("FAKE_EDIT", "edited meanwhile");
    failing(fake.run("bin/library", &[]), &["the sources were changed while they were proved"]);
    fake.unset("FAKE_EDIT");
    saying(fake.run("bin/library", &[]), &["library has no record of what it was made from"]);
}

#[test]
fn a_library_is_made_elsewhere_where_the_repositorys_cannot_be_used() {
    let fake = Fake::new("into");
    let place = fake.root.with_file_name("cargo's folder");
    let words = ["--into", place.to_str().unwrap()];
    let files = fake.files();
    failing(
        fake.run("bin/library", &[&["--check"][..], &words].concat()),
        &["is missing; ", "cargo's folder/target/"],
    );
    assert!(!place.exists());
    let made = saying(fake.run("bin/library", &words), &["is missing; ", "proved stage, 2 of 3"]);
    assert_eq!(made, format!("{}\n", place.join(ARCHIVE).display()));
    assert_eq!(quiet(fake.run("bin/library", &words)), made);
    assert_eq!(fake.files(), files);
    saying(fake.run("bin/library", &[]), &["is missing; "]);
    assert_eq!(quiet(fake.run("bin/library", &words)), archive_of(&fake));
    // Why the repository's own cannot be used is told, and not that the other is missing.
    fake.write("crates/leaf/src/lib.rt", "edited\n");
    let elsewhere = fake.root.with_file_name("another folder");
    let words = ["--into", elsewhere.to_str().unwrap()];
    let first = "library was made from other sources; ";
    failing(
        fake.run("bin/library", &[&["--check"][..], &words].concat()),
        &[first, "another folder/target/"],
    );
    saying(fake.run("bin/library", &words), &[first, "another folder/target/", "proved stage, 2 of 3"]);
}

#[test]
fn a_library_that_is_ready_is_taken_as_it_is() {
    let mut fake = Fake::new("ready");
    fake.set("SCOPE_DEPS_LIBRARY", "a repository/examples/a.job");
    let ready = format!("{}\n", fake.root.join("examples/a.job").display());
    assert_eq!(quiet(fake.run("bin/library", &[])), ready);
    assert_eq!(quiet(fake.run("bin/library", &["--check", "--into", "nowhere"])), ready);
    assert_eq!(quiet(fake.run("bin/scope-deps", &["--help"]).without_building()), "light: --help\n");
    assert_eq!(quiet(fake.run("bin/scope-deps", &["answer"]).without_building()), "whole: answer\n");
    assert_eq!(fake.calls(), ["cargo build", "cargo build"]);
    fake.set("SCOPE_DEPS_LIBRARY", "no/such/file");
    failing(fake.run("bin/library", &[]), &["SCOPE_DEPS_LIBRARY names no/such/file, which cannot be read"]);
}

#[test]
fn the_programs_are_made_once_and_anew_from_other_sources() {
    let fake = Fake::new("programs");
    let folder = format!("{}\n", fake.root.join("target/bin").display());
    failing(fake.run("bin/programs", &["--check"]), &["a program of the stage is missing; "]);
    assert_eq!(
        saying(
            fake.run("bin/programs", &[]),
            &["is missing; ", "proved leaf, 1 of 8", "strict_sheet, 8 of 8"]
        ),
        folder
    );
    assert_eq!(quiet(fake.run("bin/programs", &[])), folder);
    assert_eq!(fake.calls(), ["rt run"; 5]);
    fake.write("crates/run/src/lib.rt", "edited\n");
    failing(fake.run("bin/programs", &["--check"]), &["was made from other sources; "]);
    saying(fake.run("bin/programs", &[]), &["was made from other sources; "]);
}

#[test]
fn words_that_make_no_sense_are_told_and_help_is_there() {
    let fake = Fake::new("words");
    for script in ["bin/library", "bin/programs"] {
        let said = fake.run(script, &["--bogus"]);
        assert!(said.status == 2 && said.messages.contains("`--bogus` is no option"), "{said:?}");
        assert!(quiet(fake.run(script, &["--help"])).starts_with(&format!("usage: {script} ")));
    }
    let said = fake.run("demo", &["--bogus"]);
    assert!(said.status == 2 && said.messages.contains("`--bogus` is no option"), "{said:?}");
    assert!(quiet(fake.run("demo", &["--help"])).starts_with("usage: ./demo\n"));
    let said = fake.run("bin/library", &["--into"]);
    assert!(said.status == 2 && said.messages.contains("a directory is missing after --into"), "{said:?}");
    assert!(fake.calls().is_empty());
}

impl Said {
    /// The same without the line that says that a program is built.
    fn without_building(mut self) -> Self {
        let (building, rest) = self.messages.split_once('\n').unwrap();
        assert!(building.contains(": building "), "{self:?}");
        self.messages = rest.to_string();
        self
    }
}

#[test]
fn what_asks_nothing_of_the_stage_needs_no_library() {
    let mut fake = Fake::new("light");
    fake.without("rt");
    assert_eq!(quiet(fake.run("bin/scope-deps", &["--help"]).without_building()), "light: --help\n");
    assert_eq!(fake.calls(), ["cargo build"]);
    fake.without("cargo");
    let files = fake.files();
    for words in [
        &["--version"][..],
        &["encode", "-"],
        &["decode"],
        &["examples"],
        &["answer", "--help"],
        &["bogus"],
        &[],
    ] {
        assert_eq!(
            quiet(fake.run("bin/scope-deps", words)).trim(),
            format!("light: {}", words.join(" ")).trim()
        );
    }
    assert_eq!(fake.files(), files);
    for words in [&["answer"][..], &["draw", "--", "--help"]] {
        failing(fake.run("bin/scope-deps", words), &["the stage's library is missing, and rt"]);
    }
}

#[test]
fn what_asks_the_stage_has_the_library_made_first() {
    for command in ["answer", "sheet", "thin", "explain", "draw"] {
        let mut fake = Fake::new(&format!("whole-{command}"));
        let parts = ["library is missing", "proved stage, 2 of 3", "scope-deps: building"];
        assert_eq!(
            saying(fake.run("bin/scope-deps", &[command, "x"]), &parts),
            format!("whole: {command} x\n")
        );
        assert_eq!(fake.calls(), ["cargo build", "rt lib", "cargo build"]);
        // All is built: nothing is needed and nothing is written.
        fake.without("rt");
        fake.without("cargo");
        let files = fake.files();
        assert_eq!(quiet(fake.run("bin/scope-deps", &[command])), format!("whole: {command}\n"));
        assert_eq!(quiet(fake.run("bin/scope-deps", &["encode"])), "whole: encode\n");
        assert_eq!(
            quiet(fake.run("bin/scope-deps", &[command, "--help"])),
            format!("whole: {command} --help\n")
        );
        assert_eq!(fake.files(), files);
    }
}

#[test]
fn a_file_that_cannot_be_read_is_told_before_anything_is_proved() {
    let fake = Fake::new("told-first");
    let said = fake.run("bin/scope-deps", &["explain", "--all", "-o", "x", "bad.job"]).without_building();
    assert_eq!((said.status, said.messages.as_str()), (1, "light: explain --all -o x bad.job\n"));
    assert_eq!(fake.calls(), ["cargo build"]);
    let said = fake.run("bin/scope-deps", &["explain", "--", "bad.job"]);
    assert_eq!((said.status, said.messages.as_str()), (1, "light: explain -- bad.job\n"));
    let said = fake.run_on("bin/scope-deps", &["explain", "-o", "x"], "bad");
    assert_eq!((said.status, said.messages.as_str()), (1, "light: explain -o x\n"));
    assert!(fake.calls().is_empty());
    // What was read to be checked is there for the whole tool too.
    let said = saying(fake.run_on("bin/scope-deps", &["explain", "-"], "good"), &["library is missing"]);
    assert_eq!(said, "whole: explain -\ngood");
}

#[test]
fn the_tool_is_built_anew_where_it_belongs_to_other_sources() {
    let fake = Fake::new("tool");
    saying(fake.run("bin/scope-deps", &["answer"]), &[]);
    fake.calls();
    fake.write("bindings/rust/src/main.rs", "edited\n");
    saying(fake.run("bin/scope-deps", &["answer"]), &["building"]);
    assert_eq!(fake.calls(), ["cargo build"]);
    fake.write("crates/leaf/src/lib.rt", "edited\n");
    saying(fake.run("bin/scope-deps", &["answer"]), &["was made from other sources", "building"]);
    assert_eq!(fake.calls(), ["cargo build", "rt lib", "cargo build"]);
    // Something else than the script has built the program since.
    fake.write("bindings/rust/target/release/scope-deps", "#!/usr/bin/env bash\n");
    saying(fake.run("bin/scope-deps", &["answer"]), &["building"]);
}

#[test]
fn the_harness_has_made_what_its_command_needs() {
    let mut fake = Fake::new("harness");
    for words in
        [&["--help"][..], &["compare", "--help"], &["answer"], &["check"], &["generate", "--job", "1"]]
    {
        let said = fake.run("compare/oracle", words);
        assert_eq!((said.status, said.out), (0, format!("whole: {}\n", words.join(" "))));
    }
    assert_eq!(fake.calls(), ["cargo build"]);
    for command in ["compare", "memory", "bench"] {
        fake.write("crates/leaf/src/lib.rt", command);
        saying(
            fake.run("compare/oracle", &[command]),
            &["the stage's library ", "proved stage", "oracle: building"],
        );
        assert_eq!(fake.calls(), ["rt lib", "cargo build"]);
    }
    saying(
        fake.run("compare/oracle", &["programs"]),
        &["a program of the stage is missing", "strict_sheet, 8 of 8"],
    );
    assert_eq!(fake.calls(), ["rt run"; 5]);
    fake.without("rt");
    fake.without("cargo");
    let files = fake.files();
    for command in ["compare", "memory", "bench", "programs", "answer"] {
        assert_eq!(quiet(fake.run("compare/oracle", &[command])), format!("whole: {command}\n"));
    }
    assert_eq!(fake.files(), files);
}

#[test]
fn the_harness_is_built_anew_where_the_rust_changed() {
    let fake = Fake::new("reference");
    saying(fake.run("compare/oracle", &["answer"]), &["building"]);
    quiet(fake.run("compare/oracle", &["answer"]));
    fake.write("../shared/docs/src/src/react_compiler_hir/mod.rs", "edited\n");
    saying(fake.run("compare/oracle", &["answer"]), &["building"]);
}

#[test]
fn the_demo_holds_the_answer_to_the_specification() {
    let mut fake = Fake::new("demo");
    let refused = fake.run("demo", &[]);
    assert_eq!(refused.status, 1);
    assert!(refused.out.contains("refused: 3"), "{refused:?}");
    assert_parts(&refused, &["proved answer, 4 of 8", "not the answer that document 01 gives"]);
    let answer = r"AN\001\000\001\001DE\001\000\000\000\001\006\000\000\000\001";
    let entry = r"\000\000\012\000\000\000\000\000\000\000\006\000\000\000";
    fake.set("FAKE_ANSWER", format!("{answer}{entry}"));
    fake.write("crates/leaf/src/lib.rt", "edited\n");
    let first = saying(fake.run("demo", &[]), &["was made from other sources"]);
    assert!(first.contains("proved by kit 1\n") && first.contains("  1.10  (reactive, span 6)\n"), "{first}");
    fake.without("rt");
    let files = fake.files();
    assert_eq!(quiet(fake.run("demo", &[])), first);
    assert_eq!(fake.files(), files);
    assert!(fake.has("target/bin/programs.digest"));
}

#[test]
fn cargo_warns_of_a_proof_and_has_it_done_in_its_own_directory() {
    let fake = Fake::new("package");
    let said = fake.check_package();
    let warning =
        "warning: scope-deps@0.1.0: library: the stage's library is missing; proving it takes about ";
    saying(said, &[warning, "/out/target/library.log"]);
    assert_eq!(fake.calls(), ["rt lib"]);
    assert!(!fake.has("target"));
    // The same build once more has nothing to prove and nothing to say.
    let again = fake.check_package();
    assert!(again.status == 0 && !again.messages.contains("warning"), "{again:?}");
    assert!(fake.calls().is_empty());
    // The repository's own, once it is there, but of other sources.
    saying(fake.run("bin/library", &[]), &["is missing"]);
    fake.write("crates/leaf/src/lib.rt", "edited\n");
    fake.calls();
    saying(
        fake.check_package(),
        &["warning: scope-deps@0.1.0: library: the stage's library was made from other sources; "],
    );
    assert_eq!(fake.calls(), ["rt lib"]);
}
