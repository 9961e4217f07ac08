//! The archive beside the Rust version, call by call. After each call the
//! answer, every lent byte and the guards around it are compared.

mod budgets;
mod changes;
mod counts;
mod measure;
mod recover;
mod songs;
mod widths;
mod words;

pub use counts::{grouped, Counts, Group};
pub use songs::Songs;

use crate::engine::{
    self, Answer, FAULTS_BYTES, FILE_BYTES, OLD_STATE_BYTES, OUTPUT_BYTES, STATE_BYTES,
    TABLE_BYTES, TRACE_BYTES,
};
use crate::form::{state_form, table_form};
use crate::lent::Lent;
use m7_reference::line::{self, Engine, Kind};
use m7_reference::macros::Table;
use m7_reference::protocol::hex;
use m7_reference::read::read_file;
use m7_reference::refusal::Refusal;
use m7_reference::state::State;
use m7_reference::write::write_table;

/// What an unused output, file, trace, faults' or old state's memory holds before a call.
const OLD: u8 = 0xFF;

/// The memories lent, and what they must hold.
pub struct Trial {
    table: Lent,
    state: Lent,
    old: Lent,
    output: Lent,
    trace: Lent,
    file: Lent,
    faults: Lent,
    line: Lent,
    pattern: Lent,
    source: Lent,
    table_bytes: Vec<u8>,
    state_bytes: Vec<u8>,
    trace_bytes: Vec<u8>,
    /// The Rust version's table and state; nothing where the bytes are none.
    plain_table: Option<Table>,
    plain_state: Option<State>,
    pub counts: Counts,
    pub differing: u64,
    /// Lines that wrote a trace, and the longest.
    pub traced: u64,
    pub longest_trace: usize,
    /// Files measured that are read, and cannot be written out.
    pub unwritten: u64,
    /// Faults listed.
    pub faults_found: u64,
}

fn taken(length: usize) -> Answer {
    Answer { number: 0, place: 0, passes: 0, kind: 0, length: length as u32 }
}

fn refused(number: u32) -> Answer {
    Answer { number, ..taken(0) }
}

fn refused_at(refusal: Refusal) -> Answer {
    Answer { place: refusal.place as u32, ..refused(refusal.number as u32) }
}

/// The text and the answer that the Rust version gives.
fn told(answer: line::Answer) -> (Vec<u8>, Answer) {
    let passes = answer.passes as u32;
    let told = |kind, length: usize| Answer { passes, kind, ..taken(length) };
    match answer.kind {
        Kind::Out(text) => {
            let answer = told(1, text.len());
            (text, answer)
        }
        Kind::Withheld => (Vec::new(), told(2, 0)),
        Kind::Control => (Vec::new(), told(3, 0)),
        Kind::Refused(refusal) => (Vec::new(), Answer { passes, ..refused_at(refusal) }),
    }
}

/// Whether memory holds the text and zeros behind it, or if refused what it held.
fn filled(memory: &Lent, answer: Answer, text: &[u8]) -> bool {
    let mut expected = vec![0; memory.get().len()];
    if answer.number != 0 {
        expected.fill(OLD);
    }
    expected[..text.len()].copy_from_slice(text);
    memory.holds(&expected)
}

impl Trial {
    pub fn new() -> Trial {
        let mut trial = Trial {
            table: Lent::new(TABLE_BYTES),
            state: Lent::new(STATE_BYTES),
            old: Lent::new(OLD_STATE_BYTES),
            output: Lent::new(OUTPUT_BYTES),
            trace: Lent::new(TRACE_BYTES),
            file: Lent::new(FILE_BYTES),
            faults: Lent::new(FAULTS_BYTES),
            line: Lent::new(0),
            pattern: Lent::new(0),
            source: Lent::new(0),
            table_bytes: vec![0; TABLE_BYTES],
            state_bytes: vec![0; STATE_BYTES],
            trace_bytes: vec![0; TRACE_BYTES],
            plain_table: Some(Table::new()),
            plain_state: None,
            counts: Counts::new(),
            differing: 0,
            traced: 0,
            longest_trace: 0,
            unwritten: 0,
            faults_found: 0,
        };
        trial.fresh();
        trial
    }

    /// Counts a call; says so if something differs, with the file that the table came from.
    fn note(&mut self, group: Group, answer: Answer, expected: Answer, same: bool, what: &str) {
        self.counts.add(group, answer);
        if same && answer == expected {
            return;
        }
        self.differing += 1;
        if self.differing <= 20 {
            println!("DIFFERS: {what}");
            println!("  archive {answer:?}\n  Rust    {expected:?}, memories equal: {same}");
            println!("  file {}", hex(self.source.get()));
        }
    }

    /// Reads a file onto whatever the table memory holds.
    pub fn read(&mut self, group: Group, file: &[u8]) {
        self.source.hold(file);
        let answer = engine::read(self.source.get(), self.table.lend());
        let expected = match read_file(file) {
            Ok(macros) => {
                table_form(&macros, &mut self.table_bytes);
                let length = macros.len();
                self.plain_table = Some(macros);
                taken(length)
            }
            Err(refusal) => refused_at(refusal),
        };
        let same = self.source.holds(file) && self.table.holds(&self.table_bytes);
        self.note(group, answer, expected, same, "m7_read");
    }

    /// Writes the table out, and gives the file if it is taken.
    pub fn write(&mut self, group: Group) -> Option<Vec<u8>> {
        self.file.lend().fill(OLD);
        let answer = engine::write(self.table.get(), self.file.lend());
        let written = self.plain_table.as_ref().map(|table| write_table(table));
        let (expected, text) = match written {
            None => (refused(1), Vec::new()),
            Some(Err(refusal)) => (refused_at(refusal), Vec::new()),
            Some(Ok(text)) => (taken(text.len()), text),
        };
        let same = filled(&self.file, expected, &text) && self.table.holds(&self.table_bytes);
        self.note(group, answer, expected, same, "m7_write");
        (expected.number == 0).then_some(text)
    }

    pub fn fresh(&mut self) {
        let answer = engine::fresh(self.state.lend());
        let state = State::fresh();
        state_form(&state, &mut self.state_bytes);
        self.plain_state = Some(state);
        let same = self.state.holds(&self.state_bytes);
        self.note(Group::Fresh, answer, taken(0), same, "m7_fresh");
    }

    /// What the Rust version answers, its table and state moved on.
    fn plain_feed(&mut self, line: &[u8], budget: u32) -> (Vec<u8>, Answer) {
        let Some(table) = self.plain_table.take() else {
            return (Vec::new(), refused(1));
        };
        let Some(state) = self.plain_state.take() else {
            self.plain_table = Some(table);
            return (Vec::new(), refused(2));
        };
        let macros = table.len();
        let mut plain = Engine { table, state };
        let line::Fed { answer, trace } = plain.feed_traced(line, budget as u64);
        self.expect_trace(trace);
        if !matches!(answer.kind, Kind::Refused(_)) {
            state_form(&plain.state, &mut self.state_bytes);
        }
        if plain.table.len() != macros {
            table_form(&plain.table, &mut self.table_bytes);
        }
        self.plain_table = Some(plain.table);
        self.plain_state = Some(plain.state);
        told(answer)
    }

    /// What the trace memory is to hold after a line.
    fn expect_trace(&mut self, trace: Option<Vec<u8>>) {
        if let Some(text) = trace {
            self.trace_bytes[..text.len()].copy_from_slice(&text);
            self.trace_bytes[text.len()..].fill(0);
            self.traced += 1;
            self.longest_trace = self.longest_trace.max(text.len());
        }
    }

    /// Lets the trace memory hold what no trace does.
    pub fn spoil_trace(&mut self) {
        self.trace_bytes.fill(OLD);
        self.trace.hold(&self.trace_bytes);
    }

    /// Feeds a line to the table and the state as they are.
    pub fn feed(&mut self, group: Group, budget: u32, line: &[u8]) -> Answer {
        self.line.hold(line);
        self.output.lend().fill(OLD);
        let (table, state) = (self.table.lend(), self.state.lend());
        let (output, trace) = (self.output.lend(), self.trace.lend());
        let answer = engine::feed(table, state, self.line.get(), budget, output, trace);
        let (text, expected) = self.plain_feed(line, budget);
        let same = filled(&self.output, expected, &text)
            && self.line.holds(line)
            && self.table.holds(&self.table_bytes)
            && self.state.holds(&self.state_bytes)
            && self.trace.holds(&self.trace_bytes);
        let what = || format!("m7_feed, budget {budget}, line {}", hex(line));
        let what = if same && answer == expected { String::new() } else { what() };
        self.note(group, answer, expected, same, &what);
        expected
    }
}
