//! Other programs on the same lines, a process each: GNU sed, and the program of part 8.

use crate::clock::{best_and_median, used_by_others, Time};
use std::fs::File;
use std::path::{Path, PathBuf};
use std::process::{Command, Stdio};

/// A folder of its own, gone when this is.
pub struct Folder(PathBuf);

impl Folder {
    pub fn new() -> Folder {
        let path = std::env::temp_dir().join(format!("m7-bench-{}", std::process::id()));
        std::fs::create_dir_all(&path).expect("a folder");
        Folder(path)
    }

    fn write(&self, name: &str, bytes: &[u8]) -> PathBuf {
        let path = self.0.join(name);
        std::fs::write(&path, bytes).expect("a file in it");
        path
    }
}

impl Drop for Folder {
    fn drop(&mut self) {
        let _ = std::fs::remove_dir_all(&self.0);
    }
}

/// GNU sed with a script of `bench/`: in the locale C it goes by bytes, in C.UTF-8 by characters.
pub fn sed(script: &str, locale: &str) -> Command {
    let mut command = Command::new("sed");
    command.env("LC_ALL", locale).arg("-f");
    command.arg(format!("{}/bench/{script}", env!("CARGO_MANIFEST_DIR")));
    command
}

/// The program of part 8, which reads `parts.m7` in its folder.
pub fn program(file: &[u8], folder: &Folder) -> Command {
    folder.write("parts.m7", file);
    let built = concat!(env!("CARGO_MANIFEST_DIR"), "/../target/bin/run_parts");
    Command::new(Path::new(built).canonicalize().unwrap_or_else(|_| panic!("no {built}")))
}

/// Microseconds of one run over a file of lines, its output dropped.
fn once(command: &mut Command, input: &Path) -> Result<f64, String> {
    let begun = used_by_others();
    let input = File::open(input).map_err(|error| error.to_string())?;
    let status = command.stdin(input).stdout(Stdio::null()).status();
    match status {
        Ok(status) if status.success() => Ok(used_by_others() - begun),
        Ok(status) => Err(status.to_string()),
        Err(error) => Err(error.to_string()),
    }
}

/// The times of runs over the lines, each less the least of a run over none; or why not. What it writes is first
/// compared with what is wanted.
pub fn feed(
    mut command: Command,
    folder: &Folder,
    lines: &[Vec<u8>],
    wanted: &[u8],
    rounds: usize,
) -> Result<Time, String> {
    command.current_dir(&folder.0);
    let all = folder.write("lines.txt", &[lines.join(&b'\n'), b"\n".to_vec()].concat());
    let none = folder.write("none.txt", b"");
    let input = File::open(&all).map_err(|error| error.to_string())?;
    let output = command.stdin(input).output().map_err(|error| error.to_string())?.stdout;
    if output != wanted {
        return Err("another output".to_string());
    }
    let start = (0..rounds).map(|_| once(&mut command, &none)).collect::<Result<Vec<_>, _>>()?;
    let times = (0..rounds).map(|_| once(&mut command, &all)).collect::<Result<Vec<_>, _>>()?;
    let start = best_and_median(start).best;
    Ok(best_and_median(times.iter().map(|time| time - start).collect()))
}
