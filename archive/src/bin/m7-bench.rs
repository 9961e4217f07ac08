//! `m7-bench` prints times of the archive, of the Rust version, of Perl, of GNU
//! sed and of the program of part 8, in one run: best / median of processor time
//! in microseconds, as tables in Markdown. `m7-bench page` also puts the tables
//! into docs/BENCHMARKS.md and draws docs/curves.svg. `m7-bench points` prints
//! the archive's and the Rust version's times, for bench/before.txt. `m7-bench
//! instructions` counts instructions of these two under valgrind.

use m7_archive::clock::{time, Time};
use m7_archive::engine::{
    self, FAULTS_BYTES, FILE_BYTES, OUTPUT_BYTES, STATE_BYTES, TABLE_BYTES, TRACE_BYTES,
};
use m7_archive::jobs::{self, Job, BY_LINES, EVERY_CALL, OVER_LINES};
use m7_archive::picture::{self, Point};
use m7_archive::process::{self, Folder};
use m7_archive::report::{both, ratio, short, Report};
use m7_archive::trial::grouped;
use m7_archive::{files, perl};
use m7_reference::line::{Engine, Kind};
use m7_reference::macros::Table;
use m7_reference::measure::measure;
use m7_reference::read::read_file;
use m7_reference::recover::recover;
use m7_reference::spell::some_file_spells;
use m7_reference::write::write_table;
use std::hint::black_box;
use std::process::Command;

fn table_of(file: &[u8]) -> Vec<u8> {
    let mut table = vec![0; TABLE_BYTES];
    let answer = engine::read(file, &mut table);
    assert_eq!(answer.number, 0, "the file is refused at {}", answer.place);
    table
}

/// Files and tables: the archive beside the Rust version.
fn beside(report: &mut Report, name: &str, proved: Time, plain: Time) {
    report.row(&[name, &both(proved), &both(plain), &ratio(proved, plain)]);
}

fn read_time(file: &[u8]) -> Time {
    let mut table = vec![0; TABLE_BYTES];
    time(400, || {
        black_box(engine::read(black_box(file), &mut table));
    })
}

fn reading(report: &mut Report, name: &str, file: &[u8]) {
    let proved = read_time(file);
    let plain = time(400, || {
        black_box(read_file(black_box(file)).is_ok());
    });
    beside(report, name, proved, plain);
}

fn recovering(report: &mut Report, name: &str, file: &[u8]) {
    let (mut table, mut faults) = (vec![0; TABLE_BYTES], vec![0; FAULTS_BYTES]);
    let proved = time(400, || {
        black_box(engine::recover(black_box(file), &mut table, &mut faults));
    });
    let plain = time(400, || {
        black_box(recover(black_box(file)).is_ok());
    });
    beside(report, name, proved, plain);
}

fn measure_time(file: &[u8]) -> Time {
    time(400, || {
        black_box(engine::measure(black_box(file)));
    })
}

fn measuring(report: &mut Report, name: &str, file: &[u8]) {
    let proved = measure_time(file);
    let plain = time(400, || {
        black_box(measure(black_box(file)).is_ok());
    });
    beside(report, name, proved, plain);
}

/// So many calls in a round, since one is short.
const TOGETHER: usize = 100;

/// A table with a byte behind its macros is refused with 1, after all of it is looked at.
fn check_time(file: &[u8]) -> Time {
    let mut table = table_of(file);
    table[TABLE_BYTES - 1] = 1;
    let mut out = vec![0; FILE_BYTES];
    let round = || {
        for _ in 0..TOGETHER {
            assert_eq!(engine::write(black_box(&table), &mut out).number, 1);
        }
    };
    time(50, round).of(TOGETHER)
}

/// A state with a byte behind its entries' ends is refused with 2, after table and state are looked at.
fn both_checks_time(entries: &[(usize, &[u8])]) -> Time {
    let (mut table, mut state) = (table_of(b""), vec![0; STATE_BYTES]);
    let (mut output, mut trace) = (vec![0; OUTPUT_BYTES], vec![0; TRACE_BYTES]);
    engine::fresh(&mut state);
    for (at, text) in entries {
        state[*at..at + text.len()].copy_from_slice(text);
    }
    state[STATE_BYTES - 1] = 1;
    let round = || {
        for _ in 0..TOGETHER {
            let answer = engine::feed(&mut table, &mut state, b"", 1, &mut output, &mut trace);
            assert_eq!(answer.number, 2);
        }
    };
    time(50, round).of(TOGETHER)
}

fn checking(report: &mut Report, name: &str, file: &[u8]) {
    let macros = read_file(file).unwrap();
    let plain = time(1000, || {
        black_box(black_box(&macros).iter().all(some_file_spells));
    });
    beside(report, name, check_time(file), plain);
}

fn writing(report: &mut Report, name: &str, file: &[u8]) {
    let table = table_of(file);
    let mut out = vec![0; FILE_BYTES];
    let macros = read_file(file).unwrap();
    let proved = time(400, || {
        black_box(engine::write(black_box(&table), &mut out));
    });
    let plain = time(400, || {
        black_box(write_table(black_box(&macros)).is_ok());
    });
    beside(report, name, proved, plain);
}

fn files_and_tables(report: &mut Report) {
    let (longest, most, parts) = (files::longest(), files::most_macros(), files::parts());
    report.table("files and tables", &["", "archive", "Rust", "archive : Rust"]);
    reading(report, "read 32,768 bytes, 64 macros", &longest);
    reading(report, "read 32,736 bytes, 96 macros", &most);
    reading(report, "read the 40 macros for part texts", &parts);
    recovering(report, "read past faults 32,768 bytes, 64 macros", &longest);
    recovering(report, "read past 256 faults, 32,768 bytes", &files::most_faults());
    measuring(report, "measure 32,768 bytes, 64 macros", &longest);
    measuring(report, "measure 32,736 bytes, 96 macros", &most);
    measuring(report, "measure the 40 macros for part texts", &parts);
    checking(report, "check 64 macros of 512 bytes", &longest);
    checking(report, "check 96 macros of 341 bytes", &most);
    checking(report, "check the 40 macros", &parts);
    writing(report, "check and write the 40 macros", &parts);
    measuring_beside_reading(report);
}

/// Files with one kind of part: its name, and each macro's bytes before, in and behind it.
const ONE_PART: [(&str, [&str; 3]); 10] = [
    ("literals in patterns", ["'", "abcdefgh ", "'<'';"]),
    ("escaped literals in patterns", ["'", "\\$a", "'<'';"]),
    ("literals and closures", ["'", "word ?1*", "'<'';"]),
    ("members of a class", ["'[", "abcdefgh", "]'<'';"]),
    ("short classes", ["'", "[ab]*", "'<'';"]),
    ("literals in replacements", ["'a'<'", "abcdefgh ", "';"]),
    ("literals and tags in replacements", ["'{a}'<'", "word {1} ", "';"]),
    ("insertions", ["'a'<'", "&(a)", "';"]),
    ("texts of calls", ["'a'<'' ", "&(a:a text of some thirty-two bytes:)", ";"]),
    ("numbers", ["'a'<'' ", "#(a=123456789)", ";"]),
];

fn measuring_beside_reading(report: &mut Report) {
    report.table("measuring beside reading", &["", "measure", "read", "measure : read"]);
    for (name, [before, unit, behind]) in ONE_PART {
        let file = files::of_one_part(before, unit, behind);
        let (measured, read) = (measure_time(&file), read_time(&file));
        report.row(&[name, &both(measured), &both(read), &ratio(measured, read)]);
    }
}

/// All lines in turn from a fresh state.
fn proved_round(first: &[u8], lines: &[Vec<u8>], mut told: impl FnMut(engine::Answer, &[u8])) {
    let (mut table, mut state) = (first.to_vec(), vec![0; STATE_BYTES]);
    let (mut output, mut trace) = (vec![0; OUTPUT_BYTES], vec![0; TRACE_BYTES]);
    engine::fresh(&mut state);
    for line in lines {
        let answer = engine::feed(&mut table, &mut state, line, 10_000, &mut output, &mut trace);
        told(answer, &output[..answer.length as usize]);
    }
}

fn plain_round(macros: &Table, lines: &[Vec<u8>]) {
    let mut plain = Engine::new(macros.clone());
    for line in lines {
        black_box(plain.feed(line, 10_000));
    }
}

fn words(passes: u64, number: u64, text: &[u8]) -> Vec<u8> {
    match number {
        0 => [format!("{passes} ").into_bytes(), text.to_vec()].concat(),
        _ => format!("{passes} ! {number}").into_bytes(),
    }
}

/// What becomes of each line by the Rust version, in the words of the Perl program.
fn plain_words(job: &Job) -> Vec<Vec<u8>> {
    let mut plain = Engine::new(read_file(&job.file).unwrap());
    let line_words = |line: &Vec<u8>| {
        let answer = plain.feed(line, 10_000);
        match answer.kind {
            Kind::Out(text) => words(answer.passes, 0, &text),
            Kind::Refused(refusal) => words(answer.passes, refusal.number as u64, b""),
            other => format!("{other:?}").into_bytes(),
        }
    };
    job.lines.iter().map(line_words).collect()
}

/// What a program writes that answers every line.
fn written(job: &Job) -> Vec<u8> {
    let mut plain = Engine::new(read_file(&job.file).unwrap());
    let mut all = Vec::new();
    for (index, line) in job.lines.iter().enumerate() {
        match plain.feed(line, 10_000).kind {
            Kind::Out(text) => all.extend([text, b"\n".to_vec()].concat()),
            Kind::Refused(refusal) => {
                let said = format!("! {} {}\n", refusal.number as u64, index + 1);
                all.extend(said.into_bytes());
            }
            _ => {}
        }
    }
    all
}

/// Perl's time, if what it printed is what is wanted.
fn perl_time(job: &Job, table: &str, wanted: &[Vec<u8>]) -> Result<Time, String> {
    let (rows, time) = perl::feed(table, &job.lines, job.rounds)?;
    if rows != wanted {
        return Err("another output".to_string());
    }
    Ok(time)
}

/// The times of a job, of one line; or why there is none.
struct Measured {
    archive: Time,
    rust: Time,
    perl: Option<Result<Time, String>>,
    sed: Option<Result<Time, String>>,
    sed_utf8: Option<Result<Time, String>>,
    program: Option<Result<Time, String>>,
}

/// The archive and the Rust version, after it is seen that both have the same output.
fn pair(job: &Job) -> (Time, Time) {
    let (first, macros) = (table_of(&job.file), read_file(&job.file).unwrap());
    let (wanted, mut told) = (plain_words(job), Vec::new());
    proved_round(&first, &job.lines, |answer, text| {
        told.push(match answer.kind {
            2 => b"Withheld".to_vec(),
            3 => b"Control".to_vec(),
            _ => words(answer.passes as u64, answer.number as u64, text),
        });
    });
    assert!(told == wanted, "{}: the archive and the Rust version differ", job.name);
    let archive = time(job.rounds, || {
        proved_round(&first, &job.lines, |answer, _| {
            black_box(answer);
        })
    });
    (archive, time(job.rounds, || plain_round(&macros, &job.lines)))
}

fn measured(job: &Job) -> Measured {
    let (folder, count) = (Folder::new(), job.lines.len());
    let (archive, rust) = pair(job);
    let perl = job.perl.as_ref().map(|table| perl_time(job, table, &plain_words(job)));
    let feed = |command| process::feed(command, &folder, &job.lines, &written(job), job.rounds);
    let sed = job.sed.map(|script| feed(process::sed(script, "C")));
    let sed_utf8 = job.sed.map(|script| feed(process::sed(script, "C.UTF-8")));
    let program = job.program.then(|| feed(process::program(&job.file, &folder)));
    let of_one =
        |time: Option<Result<Time, String>>| time.map(|time| time.map(|time| time.of(count)));
    Measured {
        archive: archive.of(count),
        rust: rust.of(count),
        perl: of_one(perl),
        sed: of_one(sed),
        sed_utf8: of_one(sed_utf8),
        program: of_one(program),
    }
}

/// Two cells: a time, or why there is none, and the ratio of another time to it.
fn cells(of: Time, time: &Option<Result<Time, String>>) -> [String; 2] {
    match time {
        Some(Ok(time)) => [both(*time), ratio(of, *time)],
        Some(Err(why)) => [why.clone(), String::new()],
        None => [String::new(), String::new()],
    }
}

/// Best times of an earlier archive and of the Rust version beside it, by table and row (`m7-bench points`).
struct Before(Vec<(String, String, f64)>);

impl Before {
    fn read() -> Before {
        let path = concat!(env!("CARGO_MANIFEST_DIR"), "/bench/before.txt");
        let text = std::fs::read_to_string(path).unwrap_or_default();
        let row = |line: &str| {
            let mut words = line.split('\t');
            let (table, name) = (words.next()?.to_string(), words.next()?.to_string());
            Some((table, name, words.next()?.parse().ok()?))
        };
        Before(text.lines().filter_map(row).collect())
    }

    fn of(&self, table: &str, name: &str) -> Option<f64> {
        self.0.iter().find(|row| row.0 == table && row.1 == name).map(|row| row.2)
    }

    /// The time before, and the ratio of now to it.
    fn cells(&self, table: &str, name: &str, now: Time) -> [String; 2] {
        match self.of(table, name) {
            Some(time) => [short(time), short(now.best / time)],
            None => [String::new(), String::new()],
        }
    }
}

fn row(report: &mut Report, job: &Job, times: &Measured, before: &Before) {
    let (now, rust) = (times.archive, times.rust);
    let mut all = vec![job.name.clone(), both(now), both(rust), ratio(now, rust)];
    if job.perl.is_some() {
        all.extend(cells(now, &times.perl));
    }
    if job.program {
        all.extend(cells(now, &times.sed));
        all.extend(cells(now, &times.sed_utf8));
        let of_sed = match (&times.program, &times.sed) {
            (Some(Ok(program)), Some(Ok(sed))) => ratio(*program, *sed),
            _ => String::new(),
        };
        all.extend([cells(now, &times.program)[0].clone(), of_sed]);
    }
    all.extend(before.cells(job.table, &job.name, now));
    report.row(&all.iter().map(String::as_str).collect::<Vec<_>>());
}

fn head(report: &mut Report, job: &Job) {
    let mut columns = vec!["", "archive", "Rust", "archive : Rust"];
    if job.perl.is_some() {
        columns.extend(["Perl", "archive : Perl"]);
    }
    if job.program {
        columns.extend(["sed", "archive : sed", "sed in UTF-8", "archive : sed in UTF-8"]);
        columns.extend(["program", "program : sed"]);
    }
    columns.extend(["before", "archive : before"]);
    report.table(job.table, &columns);
}

/// The state's entries begin behind two flags, 26 pointers and 52 numbers of four bytes.
const ENTRIES_AT: usize = 236;

/// The checks that come before every line.
fn checks() -> [(&'static str, Time); 3] {
    let entry: (usize, &[u8]) = (ENTRIES_AT, b"10");
    [
        ("check an empty table", check_time(b"")),
        ("check an empty table and a state without entries", both_checks_time(&[])),
        ("check an empty table and a state with an entry", both_checks_time(&[entry])),
    ]
}

/// The bars: what is compared, with what, and the ratio that it may have at most.
fn bars(report: &mut Report, two: &[Measured]) {
    report.table("bars", &["best of the times", "at most", "measured", ""]);
    let best = |time: &Option<Result<Time, String>>| match time {
        Some(Ok(time)) => time.best,
        _ => f64::NAN,
    };
    let [first, second] = two else { panic!("two jobs have bars") };
    let rows = [
        ("section 10, archive : sed", 0.95, first.archive.best / best(&first.sed)),
        ("section 10, archive : sed in UTF-8", 0.95, first.archive.best / best(&first.sed_utf8)),
        ("section 10, archive : Perl", 0.30, first.archive.best / best(&first.perl)),
        ("40 macros, archive : Rust", 0.30, second.archive.best / second.rust.best),
        ("40 macros, archive : Perl", 0.15, second.archive.best / best(&second.perl)),
        ("section 10, program : sed", 0.50, best(&first.program) / best(&first.sed)),
        ("section 10, program : sed in UTF-8", 0.50, best(&first.program) / best(&first.sed_utf8)),
    ];
    for (name, most, measured) in rows {
        let says = if measured <= most { "met" } else { "not met" };
        report.row(&[name, &format!("{most:.2}"), &short(measured), says]);
    }
}

/// The curve of lines shows the time of all, the others that of one.
fn point(job: &Job, times: &Measured, before: &Before) -> Option<Point> {
    let all = if job.table == BY_LINES { job.lines.len() as f64 } else { 1.0 };
    Some(Point {
        table: job.table.to_string(),
        at: job.at?,
        archive: times.archive.best * all,
        before: before.of(job.table, &job.name).map(|time| time * all),
        rust: times.rust.best * all,
    })
}

fn times() -> (Report, Vec<Point>) {
    let (mut report, before) = (Report::default(), Before::read());
    let (mut table, mut two, mut points) = ("", Vec::new(), Vec::new());
    for job in jobs::all() {
        if table != job.table {
            table = job.table;
            head(&mut report, &job);
            if table == EVERY_CALL {
                for (name, now) in checks() {
                    let [old, ratio] = before.cells(table, name, now);
                    report.row(&[name, &both(now), "", "", &old, &ratio]);
                }
            }
        }
        let times = measured(&job);
        row(&mut report, &job, &times, &before);
        points.extend(point(&job, &times, &before));
        if job.table == OVER_LINES {
            two.push(times);
        }
    }
    files_and_tables(&mut report);
    bars(&mut report, &two);
    (report, points)
}

/// The tables in docs/BENCHMARKS.md, and the curves beside it.
fn page() {
    let folder = concat!(env!("CARGO_MANIFEST_DIR"), "/../docs");
    let (report, points) = times();
    let path = format!("{folder}/BENCHMARKS.md");
    let old = std::fs::read_to_string(&path).expect("the page can be read");
    std::fs::write(path, report.fill(&old)).expect("the page can be written");
    let picture = picture::draw(&points);
    std::fs::write(format!("{folder}/curves.svg"), picture).expect("the picture can be written");
}

/// What bench/before.txt has: table, row, and the best of the archive's and of the Rust version's times of one line.
fn points() {
    println!("# table, row, archive, Rust: best times of one line in microseconds");
    for (name, time) in checks() {
        println!("{EVERY_CALL}\t{name}\t{:.4}", time.best);
    }
    for job in jobs::all() {
        let (archive, rust) = pair(&job);
        let (archive, rust) = (archive.of(job.lines.len()), rust.of(job.lines.len()));
        println!("{}\t{}\t{:.4}\t{:.4}", job.table, job.name, archive.best, rust.best);
    }
}

/// Of more lines than this the first are counted, since counting is slow.
const COUNTED_LINES: usize = 500;

/// Feeds the lines of a job so many times and does nothing else; to be counted.
fn only(job: &Job, engine: &str, rounds: usize) {
    let (first, macros) = (table_of(&job.file), read_file(&job.file).unwrap());
    let lines = &job.lines[..job.lines.len().min(COUNTED_LINES)];
    for _ in 0..rounds {
        match engine {
            "archive" => proved_round(&first, lines, |answer, _| {
                black_box(answer);
            }),
            _ => plain_round(&macros, lines),
        }
    }
}

/// Without the string instructions of the C library's copies: valgrind counts
/// each byte of theirs.
const COPIES: &str =
    "glibc.cpu.x86_rep_movsb_threshold=9999999999:glibc.cpu.x86_rep_stosb_threshold=9999999999";

/// The instructions of a process that does `rounds` rounds of a job.
fn counted(index: usize, engine: &str, rounds: usize) -> u64 {
    let own = std::env::current_exe().expect("this program has a path");
    let output = Command::new("valgrind")
        .env("GLIBC_TUNABLES", COPIES)
        .args(["--tool=callgrind", "--callgrind-out-file=/dev/null"])
        .arg(own)
        .args(["only", &index.to_string(), engine, &rounds.to_string()])
        .output()
        .expect("valgrind runs");
    let text = String::from_utf8_lossy(&output.stderr).to_string();
    let count = text.lines().find_map(|line| line.split("Collected :").nth(1));
    count.and_then(|count| count.trim().parse().ok()).expect("valgrind tells a count")
}

fn instructions() {
    let mut table = "";
    for (index, job) in jobs::all().iter().enumerate() {
        if job.lines.len() > COUNTED_LINES && job.perl.is_none() {
            continue;
        }
        if table != job.table {
            table = job.table;
            println!("\n| {table} | archive | Rust | archive : Rust |\n|---|---|---|---|");
        }
        let count = |engine| counted(index, engine, 1) - counted(index, engine, 0);
        let (proved, plain) = (count("archive"), count("rust"));
        let ratio = short(proved as f64 / plain as f64);
        let part = if job.lines.len() > COUNTED_LINES { " (the first 500)" } else { "" };
        println!("| {}{part} | {} | {} | {ratio} |", job.name, grouped(proved), grouped(plain));
    }
}

fn main() {
    let given: Vec<String> = std::env::args().skip(1).collect();
    let given: Vec<&str> = given.iter().map(String::as_str).collect();
    match given[..] {
        [] => {
            times();
        }
        ["page"] => page(),
        ["points"] => points(),
        ["instructions"] => instructions(),
        ["only", index, engine, rounds] => {
            let job = &jobs::all()[index.parse::<usize>().expect("a job's number")];
            only(job, engine, rounds.parse().expect("a number of rounds"));
        }
        _ => eprintln!("usage: m7-bench [page | points | instructions]"),
    }
}
