//! What is measured of feeding: tables and lines.

use crate::{files, perl};
use m7_reference::read::read_file;
use m7_reference::write::write_table;

/// A table, and lines that are fed to it in turn from a fresh state.
pub struct Job {
    /// The table of the report that it stands in.
    pub table: &'static str,
    pub name: String,
    pub file: Vec<u8>,
    pub lines: Vec<Vec<u8>>,
    pub rounds: usize,
    /// The text of the same table in Perl.
    pub perl: Option<String>,
    /// The script of `bench/` that does the same on these lines.
    pub sed: Option<&'static str>,
    /// Whether the program of part 8 is timed too.
    pub program: bool,
    /// Its place on a curve.
    pub at: Option<f64>,
}

/// Where no other program is timed and no curve drawn.
fn plain(
    table: &'static str,
    name: String,
    file: Vec<u8>,
    lines: Vec<Vec<u8>>,
    rounds: usize,
) -> Job {
    Job { table, name, file, lines, rounds, perl: None, sed: None, program: false, at: None }
}

pub const OVER_LINES: &str = "tables over lines";
pub const EVERY_CALL: &str = "what every call costs";
pub const BY_LENGTH: &str = "line length, 39 macros";
pub const BY_LENGTH_WORST: &str = "line length, a worst pattern";
pub const BY_MACROS: &str = "number of macros";
pub const BY_LINES: &str = "number of lines";

pub fn all() -> Vec<Job> {
    let mut jobs = tables();
    jobs.extend(every_call());
    jobs.extend(traced());
    jobs.extend(worst());
    jobs.extend(lengths());
    jobs.extend(macros());
    jobs.extend(lines());
    jobs
}

/// The two jobs that the bars are about.
fn tables() -> Vec<Job> {
    let job = |name: &str, file, lines, perl, sed| Job {
        perl: Some(perl::table(perl)),
        sed,
        program: true,
        ..plain(OVER_LINES, name.to_string(), file, lines, 7)
    };
    let (program, song) = (files::program_lines(20_000), files::song_lines(2_000));
    let manual = files::MANUAL_10.to_vec();
    vec![
        job(
            "manual's section 10, 20,000 lines",
            manual,
            program,
            "manual10.pl",
            Some("manual10.sed"),
        ),
        job("40 macros for part texts, 2,000 lines", files::parts(), song, "parts.pl", None),
    ]
}

/// An empty table: its check, the state's, and what a line costs that no macro looks at.
fn every_call() -> Vec<Job> {
    let job = |name: &str, line: &[u8]| {
        plain(EVERY_CALL, name.to_string(), Vec::new(), vec![line.to_vec(); 1_000], 20)
    };
    vec![
        job("an empty line to an empty table", b""),
        job("a line of 1,054 bytes to an empty table", &[b'a'; 1054]),
    ]
}

/// The same tables without and with a trace.
fn traced() -> Vec<Job> {
    let job = |(flag, name, file, mut lines): (&str, &str, Vec<u8>, Vec<Vec<u8>>)| {
        lines.insert(0, flag.as_bytes().to_vec());
        plain("trace", format!("{name}, `{flag}`"), file, lines, 7)
    };
    let (manual, parts) = ("manual's section 10", "40 macros for part texts");
    let (program, song) = (files::program_lines(499), files::song_lines(499));
    let rows = ["$TRACE 0", "$TRACE 1"].into_iter().flat_map(|flag| {
        [
            (flag, manual, files::MANUAL_10.to_vec(), program.clone()),
            (flag, parts, files::parts(), song.clone()),
        ]
    });
    rows.map(job).collect()
}

/// One pass over 1,054 letters a, on most of which nothing matches.
fn worst() -> Vec<Job> {
    let job = |(unit, last): (&str, &str)| {
        let (file, times) = files::full_macro(unit, last);
        let name = format!("{times} times `{unit}`, then `{last}`");
        let perl = Some(files::perl_macro(unit, last, times));
        Job { perl, ..plain("worst patterns", name, file, vec![vec![b'a'; 1054]], 5) }
    };
    let units = [
        ("a*-", "b"),
        ("a*", "b"),
        ("{a*-}", "b"),
        ("[ab]*-", "c"),
        ("?1*-", "\\n"),
        ("a*-", "[bc]"),
        ("a", "b"),
        ("a*-^", "b"),
    ];
    units.into_iter().map(job).collect()
}

/// A line in which nothing occurs, fed over and over.
fn lengths() -> Vec<Job> {
    let lyrics = |size: usize| -> Vec<u8> {
        let mut line: Vec<u8> = b"or us ni um ow ".iter().copied().cycle().take(size).collect();
        line.reverse();
        line
    };
    let job = |table, size: usize, file, line: Vec<u8>, times| {
        let name = format!("bytes: {size}");
        Job { at: Some(size as f64), ..plain(table, name, file, vec![line; times], 20) }
    };
    let sizes = [0, 10, 100, 200, 400, 600, 800, 1000];
    let usual = |size: &usize| job(BY_LENGTH, *size, files::open_parts(), lyrics(*size), 20);
    let worst = |size: &usize| {
        job(BY_LENGTH_WORST, *size, files::full_macro("a*-", "b").0, vec![b'a'; *size], 2)
    };
    sizes.iter().map(usual).chain(sizes.iter().map(worst)).collect()
}

fn macros() -> Vec<Job> {
    let table = read_file(&files::parts()).expect("the file is taken");
    let job = |count: usize| {
        let file = write_table(&table[40 - count..]).expect("it can be written");
        let name = format!("macros: {count}");
        let at = Some(count as f64);
        Job { at, ..plain(BY_MACROS, name, file, files::song_lines(340), 20) }
    };
    [0, 1, 2, 5, 10, 15, 20, 25, 30, 35, 40].into_iter().map(job).collect()
}

fn lines() -> Vec<Job> {
    let job = |count: usize| {
        let (name, lines) = (format!("lines: {count}"), files::program_lines(count));
        let rounds = (20_000 / count).clamp(5, 200);
        let at = Some(count as f64);
        Job { at, ..plain(BY_LINES, name, files::MANUAL_10.to_vec(), lines, rounds) }
    };
    [1, 10, 100, 1_000, 2_000, 4_000, 6_000, 8_000, 10_000].into_iter().map(job).collect()
}
