//! Perl on the same lines, with the table written as substitutions.

use crate::clock::Time;
use std::io::Write;
use std::path::PathBuf;
use std::process::{Command, Stdio};

/// The text of a table in `bench/`.
pub fn table(name: &str) -> String {
    let path = format!("{}/bench/{name}", env!("CARGO_MANIFEST_DIR"));
    std::fs::read_to_string(&path).unwrap_or_else(|error| panic!("{path}: {error}"))
}

/// A table in a file of its own, gone when this is.
struct Kept(PathBuf);

impl Kept {
    fn new(table: &str) -> Kept {
        let path = std::env::temp_dir().join(format!("m7-bench-{}.pl", std::process::id()));
        std::fs::write(&path, table).expect("a file for Perl");
        Kept(path)
    }
}

impl Drop for Kept {
    fn drop(&mut self) {
        let _ = std::fs::remove_file(&self.0);
    }
}

/// What became of each line, with its passes, and the times; or why not.
pub fn feed(table: &str, lines: &[Vec<u8>], rounds: usize) -> Result<(Vec<Vec<u8>>, Time), String> {
    let kept = Kept::new(table);
    let mut perl = Command::new("perl")
        .arg(concat!(env!("CARGO_MANIFEST_DIR"), "/bench/feed.pl"))
        .arg(&kept.0)
        .arg(rounds.to_string())
        .stdin(Stdio::piped())
        .stdout(Stdio::piped())
        .spawn()
        .map_err(|error| format!("no Perl: {error}"))?;
    let mut input = perl.stdin.take().expect("a pipe");
    let text = [lines.join(&b'\n'), b"\n".to_vec()].concat();
    let writer = std::thread::spawn(move || input.write_all(&text));
    let output = perl.wait_with_output().map_err(|error| error.to_string())?.stdout;
    writer.join().expect("a thread").map_err(|error| error.to_string())?;
    let mut rows: Vec<Vec<u8>> = output.split(|byte| *byte == b'\n').map(<[u8]>::to_vec).collect();
    rows.pop();
    let last = String::from_utf8(rows.pop().unwrap_or_default()).unwrap_or_default();
    let times: Vec<f64> = last.split(' ').filter_map(|word| word.parse().ok()).collect();
    match times[..] {
        [best, median] => Ok((rows, Time { best, median })),
        _ => Err(last),
    }
}
