//! The stored answers, except those for the program.

use m7_reference::answers::{parse, run, Case};

/// The texts of the folder `answers/` by path.
fn texts() -> Vec<(String, String)> {
    let folder = concat!(env!("CARGO_MANIFEST_DIR"), "/answers");
    let paths = std::fs::read_dir(folder).unwrap().map(|entry| entry.unwrap().path());
    let text = paths.filter(|path| {
        path.extension().is_some_and(|ending| ending == "txt") && !path.ends_with("programs.txt")
    });
    let mut texts: Vec<(String, String)> = text
        .map(|path| (path.display().to_string(), std::fs::read_to_string(&path).unwrap()))
        .collect();
    texts.sort();
    texts
}

fn cases_of((path, text): &(String, String)) -> Vec<Case> {
    parse(text).unwrap_or_else(|error| panic!("{path}: {error}"))
}

fn cases() -> Vec<Case> {
    texts().iter().flat_map(cases_of).collect()
}

#[test]
fn stored_answers_hold() {
    let mut failures = Vec::new();
    for text in texts() {
        let cases = cases_of(&text);
        let mut checks = 0;
        for case in &cases {
            match run(case) {
                Ok(held) => checks += held,
                Err(message) => failures.push(message),
            }
        }
        println!("{}: {} cases, {checks} answers", text.0, cases.len());
    }
    assert!(failures.is_empty(), "{} failed:\n{}", failures.len(), failures.join("\n"));
}

#[test]
fn every_case_says_where_it_comes_from_and_checks_something() {
    for case in cases() {
        assert!(!case.from.is_empty(), "{} has no origin", case.name);
        assert!(!case.checks.is_empty(), "{} checks nothing", case.name);
    }
}
