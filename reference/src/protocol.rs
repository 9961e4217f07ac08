//! The line protocol: one command a line, bytes as hex, one answer a line.

use crate::line::{Answer, Engine, Fed, Kind, PassMade};
use crate::measure::measure;
use crate::read::read_file;
use crate::recover::recover;
use crate::refusal::Refusal;
use crate::spell::shortest_length;
use crate::state::State;
use crate::words::covered_words;
use crate::write::write_table;

/// Bytes as lower case hex; `-` for none.
pub fn hex(bytes: &[u8]) -> String {
    if bytes.is_empty() {
        return "-".to_string();
    }
    bytes.iter().map(|byte| format!("{byte:02x}")).collect()
}

pub fn unhex(text: &str) -> Option<Vec<u8>> {
    if text == "-" {
        return Some(Vec::new());
    }
    if !text.is_ascii() || text.is_empty() || text.len() % 2 == 1 {
        return None;
    }
    let pairs = (0..text.len()).step_by(2);
    pairs.map(|at| u8::from_str_radix(&text[at..at + 2], 16).ok()).collect()
}

/// `no NUMBER PLACE`.
pub fn refusal_words(refusal: Refusal) -> String {
    format!("no {} {}", refusal.number, refusal.place)
}

/// `NUMBER PLACE PASSES KIND HEXTEXT`; kind 1 out, 2 withheld, 3 control,
/// 0 refused.
pub fn answer_words(answer: &Answer) -> String {
    let passes = answer.passes;
    match &answer.kind {
        Kind::Out(text) => format!("0 0 {passes} 1 {}", hex(text)),
        Kind::Withheld => format!("0 0 {passes} 2 -"),
        Kind::Control => format!("0 0 {passes} 3 -"),
        Kind::Refused(refusal) => format!("{} {} {passes} 0 -", refusal.number, refusal.place),
    }
}

/// Longer traces are given by their length and sum.
const SHOWN_TRACE: usize = 1_000;

/// `ok HEXTRACE`, or of a long trace `long LENGTH SUM`: for each byte the sum
/// so far times 257 plus the byte, less all whole 999,983.
pub fn trace_words(trace: &[u8]) -> String {
    if trace.len() <= SHOWN_TRACE {
        return format!("ok {}", hex(trace));
    }
    let sum = trace.iter().fold(0, |sum, byte| (257 * sum + *byte as u32) % 999_983);
    format!("long {} {sum}", trace.len())
}

/// The shortest spelling length of each macro, oldest first; `-` for none.
pub fn spell_words(engine: &Engine) -> String {
    if engine.table.is_empty() {
        return "-".to_string();
    }
    let lengths = engine.table.iter().map(|of| shortest_length(of).to_string());
    lengths.collect::<Vec<_>>().join(" ")
}

/// One end of the protocol: a table, a state, a trace memory and an old state.
pub struct Server {
    pub engine: Engine,
    /// The trace memory up to its zeros.
    trace: Vec<u8>,
    /// A state of the old size.
    old: State,
}

impl Default for Server {
    fn default() -> Server {
        let (trace, old) = (Vec::new(), State::fresh_old());
        Server { engine: Engine::new(Vec::new()), trace, old }
    }
}

impl Server {
    /// Obeys one command and gives its answer.
    pub fn obey(&mut self, command: &str) -> String {
        let words: Vec<&str> = command.split_whitespace().collect();
        match words.as_slice() {
            ["read", file] => self.read(file),
            ["feed", budget, line] => self.feed(budget, line),
            ["passes", budget, line] => self.passes(budget, line),
            ["fresh"] => {
                self.engine.state = State::fresh();
                "ok".to_string()
            }
            ["write"] => self.write(),
            ["measure", file] => measured(file),
            ["narrow"] => match self.engine.state.narrow() {
                Ok(state) => {
                    self.old = state;
                    "ok".to_string()
                }
                Err(refusal) => refusal_words(refusal),
            },
            ["widen"] => {
                self.engine.state = self.old.widen();
                "ok".to_string()
            }
            ["recover", file] => self.recover(file),
            ["words", line, pattern] => look_up(line, pattern),
            ["trace"] => trace_words(&self.trace),
            ["spell"] => spell_words(&self.engine),
            ["state"] => self.engine.state.to_string(),
            _ => "error unknown command".to_string(),
        }
    }

    /// A refused file leaves the table; no file touches the state.
    fn read(&mut self, file: &str) -> String {
        let Some(file) = unhex(file) else {
            return "error bad hex".to_string();
        };
        match read_file(&file) {
            Ok(table) => {
                self.engine.table = table;
                format!("ok {}", self.engine.table.len())
            }
            Err(refusal) => refusal_words(refusal),
        }
    }

    /// As `read`; behind the macros kept the faults, each number and place.
    fn recover(&mut self, file: &str) -> String {
        let Some(file) = unhex(file) else {
            return "error bad hex".to_string();
        };
        match recover(&file) {
            Ok(recovered) => {
                let faults = recovered.faults.iter();
                let faults = faults.map(|fault| format!(" {} {}", fault.number, fault.place));
                let faults: String = faults.collect();
                self.engine.table = recovered.table;
                format!("ok {}{faults}", self.engine.table.len())
            }
            Err(refusal) => refusal_words(refusal),
        }
    }

    fn feed(&mut self, budget: &str, line: &str) -> String {
        match (budget.parse(), unhex(line)) {
            (Ok(budget), Some(line)) => {
                let Fed { answer, trace } = self.engine.feed_traced(&line, budget);
                if let Some(text) = trace {
                    self.trace = text;
                }
                answer_words(&answer)
            }
            _ => "error bad feed".to_string(),
        }
    }

    /// The passes that feeding the line would make; table and state stay.
    fn passes(&self, budget: &str, line: &str) -> String {
        let (Ok(budget), Some(line)) = (budget.parse(), unhex(line)) else {
            return "error bad passes".to_string();
        };
        let made = self.engine.history(&line, budget);
        let word =
            |one: &PassMade| format!("{}:{}:{}", one.number, one.occurrences, hex(&one.line));
        let words: Vec<String> = made.iter().map(word).collect();
        if words.is_empty() {
            return "-".to_string();
        }
        words.join(" ")
    }

    fn write(&self) -> String {
        match write_table(&self.engine.table) {
            Ok(file) => format!("ok {}", hex(&file)),
            Err(refusal) => refusal_words(refusal),
        }
    }
}

/// How many words of a line the word-pattern covers, and the place of the
/// first, 0 if there is none.
fn look_up(line: &str, pattern: &str) -> String {
    let (Some(line), Some(pattern)) = (unhex(line), unhex(pattern)) else {
        return "error bad hex".to_string();
    };
    match covered_words(&line, &pattern) {
        Ok(covered) => format!("ok {} {}", covered.words, covered.first.unwrap_or(0)),
        Err(refusal) => refusal_words(refusal),
    }
}

/// `ok MACROS ELEMENTS TAGS BYTES`, with `no NUMBER PLACE` for the bytes of a
/// file that cannot be written out; or `no NUMBER PLACE`.
fn measured(file: &str) -> String {
    let Some(file) = unhex(file) else {
        return "error bad hex".to_string();
    };
    let plan = match measure(&file) {
        Ok(plan) => plan,
        Err(refusal) => return refusal_words(refusal),
    };
    let bytes = plan.bytes.map_or_else(refusal_words, |bytes| bytes.to_string());
    format!("ok {} {} {} {bytes}", plan.macros, plan.elements, plan.tags)
}
