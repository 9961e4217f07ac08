//! Stored answers: the text form described in `answers/README.md`.

mod measure;
mod recover;
mod words;

pub use recover::RecoverCheck;
pub use words::WordCheck;

use crate::line::{Answer, Engine, Fed, Kind};
use crate::macros::Table;
use crate::measure::Plan;
use crate::read::{read_after, read_file};
use crate::refusal::Refusal;
use crate::spell::shortest_length;
use crate::state::State;
use crate::write::write_table;
use words::Looking;

/// One line of a case after its file.
#[derive(Clone, Debug, PartialEq, Eq)]
pub enum Check {
    Accepted(usize),
    FileRefused(Refusal),
    Line(u64, Vec<u8>),
    Answer(Answer),
    /// What the line wrote to the trace memory; nothing if that is untouched.
    Traced(Option<Vec<u8>>),
    Entry(u8, usize, Vec<u8>),
    Pointer(u8, usize),
    Counter(u8, u64),
    Increment(u8, u64),
    Trace(bool),
    Nflag(bool),
    Macros(usize),
    Written(Vec<u8>),
    WrittenBytes(usize),
    WritingRefused(Refusal),
    Shortest(usize, usize),
    SameAs(Vec<u8>),
    DiffersFrom(Vec<u8>),
    Words(WordCheck),
    Takes(Result<Plan, Refusal>),
    Recover(RecoverCheck),
    Narrow,
    Widen,
    NarrowRefused(Refusal),
}

#[derive(Clone, Debug, Default)]
pub struct Case {
    pub name: String,
    pub from: String,
    pub file: Vec<u8>,
    /// Whether it is about the old engine (02, N6).
    pub old: bool,
    /// Each check with the number of its line in the text.
    pub checks: Vec<(usize, Check)>,
}

/// The cases of a text. The message of an error names the line.
pub fn parse(text: &str) -> Result<Vec<Case>, String> {
    let mut cases: Vec<Case> = Vec::new();
    for (index, line) in text.lines().enumerate() {
        if line.is_empty() || line.starts_with('#') {
            continue;
        }
        let (word, rest) = line.split_once(' ').unwrap_or((line, ""));
        if word == "case" {
            cases.push(Case { name: rest.to_string(), ..Case::default() });
            continue;
        }
        let case = cases.last_mut().ok_or(format!("line {}: no case yet", index + 1))?;
        add_line(case, index + 1, word, rest)
            .ok_or(format!("line {}: cannot be read: {line}", index + 1))?;
    }
    Ok(cases)
}

fn add_line(case: &mut Case, number: usize, word: &str, rest: &str) -> Option<()> {
    match word {
        "from" => case.from = rest.to_string(),
        "file" => case.file.extend(unescape(rest)?),
        "old-engine" => case.old = true,
        _ => case.checks.push((number, check(word, rest)?)),
    }
    Some(())
}

fn check(word: &str, rest: &str) -> Option<Check> {
    let mut words = Words { rest };
    let check = match word {
        "accepted" => Check::Accepted(words.number()?),
        "refused" => Check::FileRefused(words.refusal()?),
        "line" => Check::Line(words.number()?, words.text()?),
        "out" | "withheld" | "control" | "no" => Check::Answer(words.answer(word)?),
        "traced" => Check::Traced(Some(words.text()?)),
        "untraced" => Check::Traced(None),
        "entry" => Check::Entry(words.letter()?, words.number()?, words.text()?),
        "pointer" => Check::Pointer(words.letter()?, words.number()?),
        "counter" => Check::Counter(words.letter()?, words.number()?),
        "increment" => Check::Increment(words.letter()?, words.number()?),
        "trace" => Check::Trace(words.number::<u8>()? == 1),
        "nflag" => Check::Nflag(words.number::<u8>()? == 1),
        "macros" => Check::Macros(words.number()?),
        "written" => Check::Written(words.text()?),
        "written-bytes" => Check::WrittenBytes(words.number()?),
        "writing-refused" => Check::WritingRefused(words.refusal()?),
        "shortest" => Check::Shortest(words.number()?, words.number()?),
        "same-as" => Check::SameAs(words.text()?),
        "differs-from" => Check::DiffersFrom(words.text()?),
        "narrow" => Check::Narrow,
        "widen" => Check::Widen,
        "narrow-refused" => Check::NarrowRefused(words.refusal()?),
        "takes" | "takes-unwritten" | "takes-refused" => {
            Check::Takes(measure::parse(word, &mut words)?)
        }
        "kept" | "recover-refused" | "faults" | "fault-count" => {
            Check::Recover(RecoverCheck::parse(word, &mut words)?)
        }
        _ => Check::Words(WordCheck::parse(word, &mut words)?),
    };
    words.rest.is_empty().then_some(check)
}

/// The words after a keyword; a text takes all that is left.
struct Words<'a> {
    rest: &'a str,
}

impl<'a> Words<'a> {
    fn word(&mut self) -> &'a str {
        let (word, rest) = self.rest.split_once(' ').unwrap_or((self.rest, ""));
        self.rest = rest;
        word
    }

    fn number<T: std::str::FromStr>(&mut self) -> Option<T> {
        self.word().parse().ok()
    }

    fn letter(&mut self) -> Option<u8> {
        match self.word().as_bytes() {
            [letter @ b'a'..=b'z'] => Some(*letter),
            _ => None,
        }
    }

    fn refusal(&mut self) -> Option<Refusal> {
        Some(Refusal::at(self.number()?, self.number()?))
    }

    fn text(&mut self) -> Option<Vec<u8>> {
        unescape(std::mem::take(&mut self.rest))
    }

    fn answer(&mut self, word: &str) -> Option<Answer> {
        if word == "no" {
            let kind = Kind::Refused(self.refusal()?);
            return Some(Answer { kind, passes: self.number()? });
        }
        let passes = self.number()?;
        let kind = match word {
            "out" => Kind::Out(self.text()?),
            "withheld" => Kind::Withheld,
            _ => Kind::Control,
        };
        Some(Answer { kind, passes })
    }
}

/// Undoes `\n`, `\t`, `\\`, `\xHH` and `\{COUNT*TEXT}`.
pub fn unescape(text: &str) -> Option<Vec<u8>> {
    let mut bytes = Vec::new();
    let mut rest = text;
    while let Some(at) = rest.find('\\') {
        bytes.extend_from_slice(&rest.as_bytes()[..at]);
        rest = &rest[at + 1..];
        let kind = rest.chars().next()?;
        rest = &rest[kind.len_utf8()..];
        match kind {
            'n' => bytes.push(b'\n'),
            't' => bytes.push(b'\t'),
            '\\' => bytes.push(b'\\'),
            'x' => {
                bytes.push(u8::from_str_radix(rest.get(..2)?, 16).ok()?);
                rest = &rest[2..];
            }
            '{' => {
                let end = repeat_end(rest)?;
                let (count, repeated) = rest[..end].split_once('*')?;
                bytes.extend(unescape(repeated)?.repeat(count.parse().ok()?));
                rest = &rest[end + 1..];
            }
            _ => return None,
        }
    }
    bytes.extend_from_slice(rest.as_bytes());
    Some(bytes)
}

/// The place of the `}` that ends a repeat, given what follows its `\{`.
fn repeat_end(text: &str) -> Option<usize> {
    let mut depth = 0;
    let mut escaped = false;
    for (place, byte) in text.bytes().enumerate() {
        match byte {
            b'{' if escaped => depth += 1,
            b'}' if depth == 0 => return Some(place),
            b'}' => depth -= 1,
            _ => {}
        }
        escaped = byte == b'\\' && !escaped;
    }
    None
}

/// What a case has while it runs.
struct Running<'a> {
    file: &'a [u8],
    read: Result<Table, Refusal>,
    engine: Engine,
    fed: Option<Fed>,
    looking: Looking,
}

/// Runs a case. The answer is the number of checks that held, or what differs.
pub fn run(case: &Case) -> Result<usize, String> {
    let state = if case.old { State::fresh_old() } else { State::fresh() };
    let read = read_after(&case.file, 0, state.entry_bytes);
    let engine = Engine { table: read.clone().unwrap_or_default(), state };
    let file = &case.file;
    let mut running = Running { file, read, engine, fed: None, looking: Looking::default() };
    for (number, check) in &case.checks {
        if let Some(said) = running.says_instead(check) {
            return Err(format!("{} (line {number}): wanted {check:?}, got {said}", case.name));
        }
    }
    Ok(case.checks.iter().filter(|(_, check)| check.is_answer()).count())
}

impl Check {
    /// Whether it says what an answer is, and does not ask for one.
    pub fn is_answer(&self) -> bool {
        !matches!(
            self,
            Check::Line(..)
                | Check::Widen
                | Check::Words(WordCheck::Pattern(_) | WordCheck::Look(_))
        )
    }
}

impl Running<'_> {
    /// What the engine says where it differs from the check.
    fn says_instead(&mut self, check: &Check) -> Option<String> {
        match check {
            Check::Accepted(_) | Check::FileRefused(_) => self.read_instead(check),
            Check::Line(budget, line) => {
                self.fed = Some(self.engine.feed_traced(line, *budget));
                None
            }
            Check::Answer(wanted) => {
                differs(&self.fed.as_ref().map(|fed| &fed.answer), &Some(wanted))
            }
            Check::Traced(wanted) => {
                differs(&self.fed.as_ref().map(|fed| &fed.trace), &Some(wanted))
            }
            Check::Words(check) => self.looking.says_instead(check),
            Check::Narrow => self.narrowed_instead(None),
            Check::NarrowRefused(wanted) => self.narrowed_instead(Some(*wanted)),
            Check::Widen => {
                self.engine.state = self.engine.state.widen();
                None
            }
            Check::Recover(check) => {
                let (said, recovered) = check.said_instead(self.file);
                if let Some(recovered) = recovered {
                    self.engine.table = recovered.table;
                }
                said
            }
            Check::Takes(wanted) => differs(&crate::measure::measure(self.file), wanted),
            _ => table_instead(check, &self.engine.table),
        }
        .or_else(|| state_instead(check, &self.engine))
    }

    /// The state goes back if it can.
    fn narrowed_instead(&mut self, refused: Option<Refusal>) -> Option<String> {
        let narrowed = self.engine.state.narrow();
        let said = differs(&narrowed.as_ref().err(), &refused.as_ref());
        if let Ok(state) = narrowed {
            self.engine.state = state;
        }
        said
    }

    fn read_instead(&self, check: &Check) -> Option<String> {
        let read = self.read.as_ref().map(Vec::len);
        match check {
            Check::Accepted(n) => differs(&read, &Ok(*n)),
            Check::FileRefused(refusal) => differs(&read, &Err(refusal)),
            _ => None,
        }
    }
}

fn table_instead(check: &Check, table: &Table) -> Option<String> {
    match check {
        Check::Macros(n) => differs(&table.len(), n),
        Check::Written(text) => differs(&write_table(table), &Ok(text.clone())),
        Check::WrittenBytes(n) => differs(&write_table(table).map(|file| file.len()), &Ok(*n)),
        Check::WritingRefused(refusal) => differs(&write_table(table), &Err(*refusal)),
        Check::Shortest(n, length) => {
            differs(&table.get(n - 1).map(shortest_length), &Some(*length))
        }
        Check::SameAs(file) => differs(&read_file(file), &Ok(table.clone())),
        Check::DiffersFrom(file) => match read_file(file) {
            Ok(other) if other != *table => None,
            other => Some(format!("{other:?}")),
        },
        _ => None,
    }
}

fn state_instead(check: &Check, engine: &Engine) -> Option<String> {
    let state = &engine.state;
    match check {
        Check::Entry(i, n, text) => differs(&state.stack(*i).entries[n - 1], text),
        Check::Pointer(i, n) => differs(&state.stack(*i).pointer, n),
        Check::Counter(i, n) => differs(&state.counter(*i).value, n),
        Check::Increment(i, n) => differs(&state.counter(*i).increment, n),
        Check::Trace(on) => differs(&state.trace, on),
        Check::Nflag(on) => differs(&state.nflag, on),
        _ => None,
    }
}

fn differs<T: PartialEq + std::fmt::Debug>(got: &T, wanted: &T) -> Option<String> {
    (got != wanted).then(|| format!("{got:?}"))
}
