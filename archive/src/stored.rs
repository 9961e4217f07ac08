//! The stored answers of the Rust version, asked of the archive.

use crate::engine::{
    self, Answer, FAULTS_BYTES, FILE_BYTES, OLD_STATE_BYTES, OUTPUT_BYTES, STATE_BYTES,
    TABLE_BYTES, TRACE_BYTES,
};
use crate::form::{
    faults_form, old_state_of, slot_form, state_form, state_of, table_form, table_of, SLOT_BYTES,
};
use crate::plan::plan_of;
use m7_reference::answers::{unescape, Case, Check, RecoverCheck, WordCheck};
use m7_reference::bounds::OLD_ENTRY_BYTES;
use m7_reference::line::{self, Engine, Kind};
use m7_reference::read::read_after;
use m7_reference::refusal::Refusal;
use m7_reference::spell::shortest_spelling;
use m7_reference::state::State;
use m7_reference::words::Covered;

/// Texts about calls that the archive does not have.
pub const NOT_ASKED: &[&str] = &[];

/// What the trace, the faults' and the old state's memory hold before a call.
const OLD: u8 = 0xFF;

/// The memories of one case.
pub struct Host {
    file: Vec<u8>,
    table: Vec<u8>,
    state: Vec<u8>,
    old: Vec<u8>,
    output: Vec<u8>,
    trace: Vec<u8>,
    read: Answer,
    fed: Option<line::Answer>,
    pattern: Vec<u8>,
    looked: Option<Result<Covered, Refusal>>,
}

/// A refusal, if the answer is one.
fn refusal(answer: Answer) -> Option<Refusal> {
    let Answer { number, place, .. } = answer;
    (number != 0).then(|| Refusal::at(number as u8, place as usize))
}

impl Host {
    pub fn new(file: &[u8]) -> Host {
        let (mut table, mut state) = (vec![0; TABLE_BYTES], vec![0; STATE_BYTES]);
        let read = engine::read(file, &mut table);
        engine::fresh(&mut state);
        let (output, trace) = (vec![0; OUTPUT_BYTES], vec![0; TRACE_BYTES]);
        let (pattern, looked) = (Vec::new(), None);
        let (file, old) = (file.to_vec(), vec![OLD; OLD_STATE_BYTES]);
        Host { file, table, state, old, output, trace, read, fed: None, pattern, looked }
    }

    pub fn feed(&mut self, line: &[u8], budget: u64) -> line::Answer {
        let budget = budget.min(u32::MAX as u64) as u32;
        let (table, state) = (&mut self.table, &mut self.state);
        self.trace.fill(OLD);
        let answer = engine::feed(table, state, line, budget, &mut self.output, &mut self.trace);
        let text = || self.output[..answer.length as usize].to_vec();
        let kind = match answer.kind {
            1 => Kind::Out(text()),
            2 => Kind::Withheld,
            3 => Kind::Control,
            _ => Kind::Refused(Refusal::at(answer.number as u8, answer.place as usize)),
        };
        line::Answer { kind, passes: answer.passes as u64 }
    }

    fn state(&self) -> State {
        state_of(&self.state).expect("the archive returns states")
    }

    fn macros(&self) -> usize {
        self.table.chunks(SLOT_BYTES).filter(|slot| slot[0] != 0).count()
    }

    fn write(&self) -> Result<Vec<u8>, Refusal> {
        let mut file = vec![0; FILE_BYTES];
        let answer = engine::write(&self.table, &mut file);
        file.truncate(answer.length as usize);
        refusal(answer).map_or(Ok(file), Err)
    }

    /// Whether a file is taken and makes the table here.
    fn spells_this(&self, file: &[u8]) -> Option<bool> {
        let mut other = vec![0; TABLE_BYTES];
        let answer = engine::read(file, &mut other);
        refusal(answer).is_none().then(|| other == self.table)
    }

    /// No call returns the length of a shortest spelling. What is asked: the
    /// spelling that the Rust version finds has it, and is read as that slot.
    fn shortest(&self, n: usize, length: usize) -> bool {
        let Some(table) = table_of(&self.table) else {
            return false;
        };
        let spelling = shortest_spelling(&table[n - 1]);
        let mut alone = vec![0; TABLE_BYTES];
        engine::read(&spelling, &mut alone);
        spelling.len() == length && alone[..SLOT_BYTES] == slot_form(&table[n - 1])
    }

    /// Whether the last line wrote this and zeros after it, or nothing.
    fn traced(&self, wanted: Option<&[u8]>) -> bool {
        let Some(text) = wanted else {
            return self.trace.iter().all(|byte| *byte == OLD);
        };
        let (begins, rest) = self.trace.split_at(text.len().min(TRACE_BYTES));
        begins == text && rest.iter().all(|byte| *byte == 0)
    }

    /// Reads the file past its faults; with `kept` the table is then that one.
    fn recovers(&mut self, check: &RecoverCheck) -> bool {
        let (mut table, mut faults) = (self.table.clone(), vec![OLD; FAULTS_BYTES]);
        let answer = engine::recover(&self.file, &mut table, &mut faults);
        let count = || u32::from_le_bytes([faults[0], faults[1], faults[2], faults[3]]) as usize;
        match check {
            RecoverCheck::Kept(n) => {
                self.table = table;
                answer.number == 0 && answer.length as usize == *n
            }
            RecoverCheck::Refused(wanted) => {
                let untouched = table == self.table && faults.iter().all(|byte| *byte == OLD);
                refusal(answer) == Some(*wanted) && untouched
            }
            RecoverCheck::Faults(wanted) => answer.number == 0 && faults == faults_form(wanted),
            RecoverCheck::FaultCount(n) => answer.number == 0 && count() == *n,
        }
    }

    /// Whether the state goes back, or is refused and leaves the old one.
    fn narrows(&mut self, refused: Option<Refusal>) -> bool {
        let before = self.old.clone();
        let answer = engine::narrow(&self.state, &mut self.old);
        refusal(answer) == refused && (refused.is_none() || self.old == before)
    }

    /// Looks a line's words up, and holds what is stored against the answer.
    fn looks(&mut self, check: &WordCheck) -> bool {
        match check {
            WordCheck::Pattern(text) => self.pattern = text.clone(),
            WordCheck::Look(line) => {
                let answer = engine::words(line, &self.pattern);
                let words = answer.length as usize;
                let first = (words > 0).then_some(answer.place as usize);
                self.looked = Some(refusal(answer).map_or(Ok(Covered { words, first }), Err));
            }
            WordCheck::Answer(wanted) => return self.looked == Some(*wanted),
        }
        true
    }

    /// Whether a stored answer holds; a line is fed.
    fn holds(&mut self, check: &Check) -> bool {
        match check {
            Check::Accepted(n) => self.read.number == 0 && self.read.length as usize == *n,
            Check::FileRefused(wanted) => refusal(self.read) == Some(*wanted),
            Check::Line(budget, line) => {
                self.fed = Some(self.feed(line, *budget));
                true
            }
            Check::Answer(wanted) => self.fed.as_ref() == Some(wanted),
            Check::Traced(wanted) => self.traced(wanted.as_deref()),
            Check::Macros(n) => self.macros() == *n,
            Check::Written(text) => self.write().as_ref() == Ok(text),
            Check::WrittenBytes(n) => self.write().map(|file| file.len()) == Ok(*n),
            Check::WritingRefused(wanted) => self.write() == Err(*wanted),
            Check::Shortest(n, length) => self.shortest(*n, *length),
            Check::SameAs(file) => self.spells_this(file) == Some(true),
            Check::DiffersFrom(file) => self.spells_this(file) == Some(false),
            Check::Entry(i, n, text) => self.state().stack(*i).entries[n - 1] == *text,
            Check::Pointer(i, n) => self.state().stack(*i).pointer == *n,
            Check::Counter(i, n) => self.state().counter(*i).value == *n,
            Check::Increment(i, n) => self.state().counter(*i).increment == *n,
            Check::Trace(on) => self.state().trace == *on,
            Check::Nflag(on) => self.state().nflag == *on,
            Check::Words(check) => self.looks(check),
            Check::Recover(check) => self.recovers(check),
            Check::Takes(wanted) => engine::measure(&self.file) == plan_of(wanted),
            Check::Narrow => self.narrows(None),
            Check::NarrowRefused(wanted) => self.narrows(Some(*wanted)),
            Check::Widen => engine::widen(&self.old, &mut self.state).number == 0,
        }
    }
}

/// The old engine, for which the Rust version stands.
fn old_engine(case: &Case) -> Option<Engine> {
    let table = read_after(&case.file, 0, OLD_ENTRY_BYTES).unwrap_or_default();
    case.old.then(|| Engine { table, state: State::fresh_old() })
}

impl Host {
    /// Takes over from the old engine: its table, and its state widened.
    fn take_over(&mut self, old: &Engine) {
        table_form(&old.table, &mut self.table);
        state_form(&old.state, &mut self.old);
    }

    /// The old engine, with the table and the state that went back.
    fn hand_back(&self) -> Option<Engine> {
        Some(Engine { table: table_of(&self.table)?, state: old_state_of(&self.old)? })
    }
}

/// The number of answers that held, or the first that did not. Where the old
/// engine answers the archive is not asked.
pub fn run(case: &Case) -> Result<usize, String> {
    let mut host = Host::new(&case.file);
    let mut old = old_engine(case);
    let mut held = 0;
    for (number, check) in &case.checks {
        if let Some(engine) = &mut old {
            match check {
                Check::Line(budget, line) => drop(engine.feed(line, *budget)),
                Check::Widen => host.take_over(engine),
                _ => {}
            }
            if !matches!(check, Check::Widen) {
                continue;
            }
            old = None;
        }
        if !host.holds(check) {
            return Err(format!("{} (line {number}): wanted {check:?}", case.name));
        }
        held += check.is_answer() as usize;
        if case.old && matches!(check, Check::Narrow) {
            old = host.hand_back();
        }
    }
    Ok(held)
}

/// A run of 01's program: macro file, input, output.
#[derive(Default)]
pub struct Run {
    pub name: String,
    parts: Option<Vec<u8>>,
    input: Vec<u8>,
    output: Vec<u8>,
}

/// The runs that have a macro file; the others are not about the archive.
pub fn runs(text: &str) -> Option<Vec<Run>> {
    let mut runs: Vec<Run> = Vec::new();
    for line in text.lines() {
        let (word, rest) = line.split_once(' ').unwrap_or((line, ""));
        if word == "case" {
            runs.push(Run { name: rest.to_string(), ..Run::default() });
        }
        let Some(run) = runs.last_mut() else { continue };
        match word {
            "parts" => run.parts.get_or_insert_default().extend(unescape(rest)?),
            "input" => run.input.extend(unescape(rest)?),
            "output" => run.output.extend(unescape(rest)?),
            _ => {}
        }
    }
    runs.retain(|run| run.parts.is_some());
    Some(runs)
}

impl Run {
    /// 01, part 8, over the archive.
    pub fn holds(&self) -> bool {
        let mut host = Host::new(self.parts.as_deref().unwrap_or_default());
        let mut output = Vec::new();
        if host.read.number != 0 {
            return self.output == format!("! {} 0\n", host.read.number).into_bytes();
        }
        let lines = self.input.split_inclusive(|byte| *byte == b'\n');
        for (index, line) in lines.enumerate() {
            let line = line.strip_suffix(b"\n").unwrap_or(line);
            match host.feed(line, 10_000).kind {
                Kind::Out(text) => output.extend([&text[..], b"\n"].concat()),
                Kind::Refused(r) => {
                    output.extend(format!("! {} {}\n", r.number, index + 1).into_bytes())
                }
                _ => {}
            }
        }
        output == self.output
    }
}
