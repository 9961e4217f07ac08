//! `m7-stored FOLDER` asks the archive for every stored answer. The exit code
//! is 1 if one does not hold.

use m7_archive::stored::{run, runs, NOT_ASKED};
use m7_reference::answers::parse;
use std::path::PathBuf;
use std::process::ExitCode;

/// The texts of a folder by name.
fn texts(folder: &str) -> Vec<(String, String)> {
    let entries = std::fs::read_dir(folder).unwrap_or_else(|error| panic!("{folder}: {error}"));
    let mut paths: Vec<PathBuf> = entries.map(|entry| entry.expect("an entry").path()).collect();
    paths.retain(|path| path.extension().is_some_and(|ending| ending == "txt"));
    paths.sort();
    let name = |path: &PathBuf| path.file_stem().unwrap_or_default().to_string_lossy().to_string();
    let text = |path: &PathBuf| std::fs::read_to_string(path).expect("a text");
    paths.iter().map(|path| (name(path), text(path))).collect()
}

fn main() -> ExitCode {
    let folder = std::env::args().nth(1).unwrap_or("reference/answers".to_string());
    let (mut cases, mut answers, mut programs, mut failures) = (0, 0, 0, Vec::new());
    let mut not_asked = 0;
    for (name, text) in texts(&folder) {
        if NOT_ASKED.contains(&name.as_str()) {
            continue;
        }
        if name == "programs" {
            for run in runs(&text).expect("the runs can be read") {
                programs += run.holds() as usize;
                failures.extend((!run.holds()).then_some(run.name));
            }
            continue;
        }
        for case in parse(&text).unwrap_or_else(|error| panic!("{name}: {error}")) {
            match run(&case) {
                Ok(0) => not_asked += 1,
                Ok(held) => answers += held,
                Err(message) => failures.push(message),
            }
            cases += 1;
        }
    }
    for failure in &failures {
        println!("FAILS: {failure}");
    }
    println!("{cases} stored cases: {answers} answers and {programs} runs of the program hold");
    println!("{not_asked} cases are the old engine's alone");
    println!("{} failed", failures.len());
    ExitCode::from((!failures.is_empty() || answers == 0 || programs == 0) as u8)
}
