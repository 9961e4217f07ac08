//! Which calls are made: generated files, and files with lists of lines.

use super::{Group, Trial};
use m7_reference::generate::{
    any_case, any_file, any_line, bound_case, entry_case, good_file, Case, Random,
};
use m7_reference::read::read_file;

/// How many of each sort were made.
#[derive(Default)]
pub struct Songs {
    pub files: u64,
    pub lists: u64,
    pub bounds: u64,
    pub long: u64,
    pub lines: u64,
}

/// Many macros and lines of many parts.
fn long_case(random: &mut Random) -> Case {
    let (odd, count) = (random.one_in(6), 10 + random.below(80));
    let file = good_file(random, odd, count);
    let table = read_file(&file).unwrap_or_default();
    let line = |random: &mut Random| {
        let size = random.below(1_100);
        let mut line = Vec::new();
        while line.len() < size {
            let more = any_line(random, &table);
            line.extend(more.iter().filter(|byte| **byte != 0 && **byte != b'\n'));
            line.push(b' ');
        }
        line.truncate(size);
        line
    };
    let lines = (0..2).map(|_| (200 + random.below(200) as u64, line(random))).collect();
    Case { file, lines }
}

impl Songs {
    /// The next file or list of lines, and the calls it is for.
    pub fn next(&mut self, trial: &mut Trial, random: &mut Random) {
        let case = match random.below(100) {
            0..=39 => {
                self.files += 1;
                Case { file: any_file(random), lines: Vec::new() }
            }
            40..=48 => {
                self.bounds += 1;
                if random.one_in(4) {
                    entry_case(random)
                } else {
                    bound_case(random)
                }
            }
            49 => {
                self.long += 1;
                long_case(random)
            }
            _ => {
                self.lists += 1;
                any_case(random, 5, 6)
            }
        };
        self.lines += case.lines.len() as u64;
        self.song(trial, random, &case);
    }

    fn song(&mut self, trial: &mut Trial, random: &mut Random, case: &Case) {
        if random.one_in(16) {
            trial.spoil(random);
        }
        mend(trial, random, &case.file);
        trial.look(random);
        if random.one_in(4) {
            trial.spoil_trace();
        }
        trial.measure(&case.file);
        if random.one_in(64) {
            trial.measure_written(random);
        }
        if random.one_in(16) {
            trial.spoil(random);
        }
        trial.read(Group::Read, &case.file);
        let short = case.file.len() < 10_000;
        if short || random.one_in(4) {
            write_and_back(trial);
        }
        trial.fresh();
        for (budget, line) in &case.lines {
            trial.passes_as_budget(random, line);
            if line.len() < 100 && random.one_in(8) {
                trial.budgets(random, line);
            }
            trial.feed(Group::Feed, (*budget).min(u32::MAX as u64) as u32, line);
        }
        if case.lines.len() > 1 {
            write_and_back(trial);
            trial.there_and_back(random);
            trial.beside_old(&case.lines);
        }
        let line = case.lines.last().map_or(&b"a1-b"[..], |(_, line)| line);
        changes(trial, random, line);
    }
}

/// Files read past their faults; the table kept reads back, too.
fn mend(trial: &mut Trial, random: &mut Random, file: &[u8]) {
    trial.recover(random);
    if random.one_in(4) {
        write_and_back(trial);
        trial.recover_file(file);
    }
}

/// Demand 2: what is written reads back as the same bytes.
fn write_and_back(trial: &mut Trial) {
    if let Some(file) = trial.write(Group::Write) {
        trial.read(Group::ReadBack, &file);
    }
}

fn changes(trial: &mut Trial, random: &mut Random, line: &[u8]) {
    trial.changed_table(random, line);
    if random.one_in(4) {
        trial.changed_state(random, line);
    }
    if random.one_in(8) {
        trial.changed_both(random, line);
    }
    if random.one_in(16) {
        trial.other_sizes(random, line);
        trial.other_widths(random);
    }
}
