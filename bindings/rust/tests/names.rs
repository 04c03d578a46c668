//! Names: read from text, kept through it, shown, and refused where they clash.

use scope_deps::{answer, sheet, IdentifierId, Job, NameError, Named, Names};

const NUMBERS: &str = "scope 2
    block 0 assumes reactive 1@3
    block 1 after 0 assumes reactive 1@3?.10@4[0].12
    block 2 after 0, 1
    candidate reactive 1@7.10@8.11@9, 2.10";

/// The same job, in names as far as they are given.
const NAMED: &str = "name 1 athlete
    name .10 lastSession  name .11 beats
    scope 2
    block 0 assumes reactive athlete@3
    name .12 $rate_2
    block 1 after 0 assumes reactive athlete@3?.lastSession@4[0].$rate_2
    block 2 after 0, 1
    candidate reactive athlete@7.10@8.beats@9, 2.lastSession";

fn job(text: &str) -> Job {
    text.parse().unwrap_or_else(|why| panic!("{why}\n{text}"))
}

#[test]
fn names_stand_for_numbers_and_are_lost_in_bytes() {
    let (named, numbers) = (job(NAMED), job(NUMBERS));
    assert_eq!(named, numbers);
    assert_eq!(named.as_bytes(), numbers.as_bytes());
    assert_eq!((named.names().len(), numbers.names().is_empty()), (4, true));
    assert!(Job::from_bytes(named.as_bytes()).unwrap().names().is_empty());
}

#[test]
fn text_keeps_names_and_uses_them() {
    let shown = job(NAMED).to_string();
    assert_eq!(
        shown,
        "name 1 athlete\nname .10 lastSession\nname .11 beats\nname .12 $rate_2\n\
         scope 2\nblock 0\n  assumes reactive athlete@3\n\
         block 1 after 0\n  assumes reactive athlete@3?.lastSession@4[0].$rate_2\n\
         block 2 after 0, 1\n\
         candidate reactive athlete@7.lastSession@8.beats@9\ncandidate 2.lastSession\n"
    );
    let back = job(&shown);
    assert_eq!((&back, back.names()), (&job(NAMED), job(NAMED).names()));
    assert_eq!(back.named(Names::new()).to_string(), job(NUMBERS).to_string());
}

#[test]
fn names_are_read_and_shown_alone() {
    let names: Names = "# of the page\nname 1 athlete name .10 lastSession".parse().unwrap();
    assert_eq!(names.to_string(), "name 1 athlete\nname .10 lastSession\n");
    assert_eq!(names.to_string().parse(), Ok(names.clone()));
    assert_eq!(names.variable("athlete"), Some(IdentifierId(1)));
    assert_eq!((names.property("lastSession"), names.property("athlete")), (Some(10), None));
    assert_eq!(names.get(Named::Property(10)), Some("lastSession"));
    assert_eq!(names.iter().collect::<Vec<_>>().len(), 2);
    assert_eq!("".parse(), Ok(Names::new()));
    let path = names.read_path("reactive athlete@5?.lastSession[0].7").unwrap();
    assert_eq!(path.to_string(), "reactive 1@5?.10[0].7");
    assert_eq!(format!("{:#}", path.with_names(&names)), "athlete?.lastSession[0].7");
    assert_eq!(path.entries()[0].with_names(&names).to_string(), "?.lastSession");
    let error = "name 1 athlete scope 3".parse::<Names>().unwrap_err();
    assert_eq!(error.message(), "`name` or the end of the names is due here, not `scope`");
}

#[test]
fn answers_and_sheets_are_shown_with_names() {
    let job = job(NAMED);
    let answer = answer(&job).unwrap();
    assert_eq!(
        answer.with_names(job.names()).to_string(),
        "rounds 2, settled\nreturned reactive athlete@8.lastSession@8\nreturned 2\n"
    );
    assert_eq!(answer.to_string(), "rounds 2, settled\nreturned reactive 1@8.10@8\nreturned 2\n");
    let shown = sheet(&job).unwrap().with_names(job.names()).to_string();
    assert!(shown.contains("node 0 reactive athlete@3\n"), "{shown}");
    assert!(shown.contains("\nblock 2 holds athlete\n"), "{shown}");
}

/// That the text is refused at this line and column with this message.
fn wrong(text: &str, line: usize, column: usize, message: &str) {
    let error = text.parse::<Job>().unwrap_err();
    assert_eq!((error.line(), error.column(), error.message()), (line, column, message), "{text}");
}

#[test]
fn names_that_clash_are_refused_where_they_stand() {
    wrong("name 1 a\nname 2 a", 2, 8, "`a` is the name of variable 1 already");
    wrong("name .1 a\nname .2 a", 2, 9, "`a` is the name of property 1 already");
    wrong("name 1 a\nname 1 b", 2, 6, "variable 1 has the name `a` already");
    wrong("name .1 a\nname .1 b", 2, 6, "property 1 has the name `a` already");
    assert!(
        "name 1 a name .1 a scope 7 block 7".parse::<Job>().is_ok(),
        "a variable and a property may share one"
    );
}

#[test]
fn what_is_no_name_is_refused() {
    let no_name = "is no name, which has letters, digits, `_` and `$`, and no digit first";
    wrong("name 1 2x", 1, 8, &format!("`2x` {no_name}"));
    wrong("name 1 reactive", 1, 8, "`reactive` is a word of the notation, and no variable's name");
    wrong("name 1 -", 1, 8, "a name is due here, not `-`");
    let what = "what is named, a variable's number or `.` and a property's,";
    wrong("name athlete 1", 1, 6, &format!("{what} is due here, not `athlete`"));
    wrong("name .x y", 1, 7, "a property's number is due here, not `x`");
    let words = "name .1 reactive name 2 scope name 3 block name 4 name name 5 größe ";
    let text = format!(
        "{words} scope 7 block 7 assumes reactive block.reactive, name block 8 candidate scope, größe"
    );
    assert_eq!(job(&text), job("scope 7 block 7 assumes reactive 3.1, 4 block 8 candidate 2, 5"));
    let mut names = Names::new();
    let empty = names.insert(Named::Property(1), "");
    assert_eq!(empty, Err(NameError::NoName { name: String::new() }));
}

#[test]
fn a_name_is_used_after_it_is_given() {
    let given = "is due here: a number, or a name given before, which";
    wrong(
        "scope 7 block 7 assumes athlete name 1 athlete",
        1,
        25,
        &format!("a path's variable {given} `athlete` is not"),
    );
    wrong("name 1 x scope 7 block 7 assumes x.x", 1, 36, &format!("a property's name {given} `x` is not"));
    assert!("athlete".parse::<scope_deps::Path>().is_err());
}

#[test]
fn names_from_elsewhere_are_joined_by_those_of_the_text() {
    let names: Names = "name 1 athlete".parse().unwrap();
    let job = names.read_job("name .10 lastSession scope 7 block 7 candidate athlete.lastSession").unwrap();
    assert_eq!(job.names().len(), 2);
    let clash = names.read_job("name 1 a scope 7 block 7").unwrap_err();
    assert_eq!(clash.message(), "variable 1 has the name `athlete` already");
}

#[test]
fn a_name_may_be_given_again_to_what_has_it() {
    let text = "name 1 athlete name .10 lastSession";
    let names: Names = text.parse().unwrap();
    let job =
        names.read_job(&format!("{text} {text} scope 7 block 7 candidate athlete.lastSession")).unwrap();
    assert_eq!(job.names(), &names);
    let given: Vec<(Named, &str)> = names.iter().collect();
    let mut walked = Vec::new();
    for name in &names {
        walked.push(name);
    }
    assert_eq!((given.len(), names.iter().len()), (2, 2));
    assert_eq!(walked, given);
}
