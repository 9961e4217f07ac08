//! The program, run on the cases of `answers/programs.txt`.

use m7_reference::answers::unescape;
use std::fs;
use std::io::Write;
use std::path::PathBuf;
use std::process::{Command, Stdio};

#[derive(Default)]
struct Case {
    name: String,
    from: String,
    parts: Parts,
    input: Vec<u8>,
    output: Vec<u8>,
}

enum Parts {
    File(Vec<u8>),
    Missing,
    Directory,
}

impl Parts {
    fn add(&mut self, text: Vec<u8>) {
        if let Parts::File(bytes) = self {
            bytes.extend(text);
        }
    }
}

impl Default for Parts {
    fn default() -> Parts {
        Parts::File(Vec::new())
    }
}

fn cases() -> Vec<Case> {
    let mut cases: Vec<Case> = Vec::new();
    for line in include_str!("../answers/programs.txt").lines() {
        let (word, rest) = line.split_once(' ').unwrap_or((line, ""));
        if word.is_empty() || word.starts_with('#') {
            continue;
        }
        if word == "case" {
            cases.push(Case { name: rest.to_string(), ..Case::default() });
            continue;
        }
        let case = cases.last_mut().expect("a case comes first");
        let text = || unescape(rest).unwrap_or_else(|| panic!("{line}"));
        match word {
            "from" => case.from = rest.to_string(),
            "parts" => case.parts.add(text()),
            "parts-missing" => case.parts = Parts::Missing,
            "parts-directory" => case.parts = Parts::Directory,
            "input" => case.input.extend(text()),
            "output" => case.output.extend(text()),
            _ => panic!("unknown line: {line}"),
        }
    }
    cases
}

/// A new folder with the case's `parts.m7`.
fn folder(case: &Case) -> PathBuf {
    let folder = PathBuf::from(env!("CARGO_TARGET_TMPDIR")).join(&case.name);
    let _ = fs::remove_dir_all(&folder);
    fs::create_dir_all(&folder).unwrap();
    match &case.parts {
        Parts::File(bytes) => fs::write(folder.join("parts.m7"), bytes).unwrap(),
        Parts::Directory => fs::create_dir(folder.join("parts.m7")).unwrap(),
        Parts::Missing => {}
    }
    folder
}

fn output(case: &Case) -> Vec<u8> {
    let mut program = Command::new(env!("CARGO_BIN_EXE_m7"))
        .current_dir(folder(case))
        .stdin(Stdio::piped())
        .stdout(Stdio::piped())
        .spawn()
        .unwrap();
    let mut input = program.stdin.take().unwrap();
    // A refused file ends the program before it reads; that is no failure.
    let _ = input.write_all(&case.input);
    drop(input);
    let done = program.wait_with_output().unwrap();
    assert!(done.status.success(), "{}", case.name);
    done.stdout
}

#[test]
fn program_answers_hold() {
    for case in cases() {
        assert!(!case.from.is_empty(), "{} has no origin", case.name);
        let got = output(&case);
        assert!(
            got == case.output,
            "{}: wanted {:?}, got {:?}",
            case.name,
            String::from_utf8_lossy(&case.output),
            String::from_utf8_lossy(&got)
        );
    }
}
