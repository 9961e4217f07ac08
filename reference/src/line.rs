//! 01, part 6: a line.

use crate::bounds::{BUDGET_END, LINE_BYTES};
use crate::macros::{Macro, Symbol, Table};
use crate::pass::pass;
use crate::read::read_after;
use crate::refusal::{
    Refusal, BUDGET_TOO_LARGE, BUDGET_USED_UP, CONTROL, LINE_BYTE, LINE_TOO_LONG,
};
use crate::replace::run_calls;
use crate::state::State;
use crate::trace::Trace;

/// What became of a line.
#[derive(Clone, Debug, PartialEq, Eq)]
pub enum Kind {
    Out(Vec<u8>),
    Withheld,
    Control,
    Refused(Refusal),
}

/// The kind, and the passes begun.
#[derive(Clone, Debug, PartialEq, Eq)]
pub struct Answer {
    pub kind: Kind,
    pub passes: u64,
}

/// An answer, and what the line wrote to the trace memory: a text with zeros
/// after it. Nothing where that memory is untouched.
#[derive(Clone, Debug, PartialEq, Eq)]
pub struct Fed {
    pub answer: Answer,
    pub trace: Option<Vec<u8>>,
}

/// One pass of a line's history: the macro's number, oldest 1, its
/// occurrences, and the line after the pass.
#[derive(Clone, Debug, PartialEq, Eq)]
pub struct PassMade {
    pub number: usize,
    pub occurrences: usize,
    pub line: Vec<u8>,
}

/// The table and the state that lines are fed to.
#[derive(Clone, Debug, PartialEq, Eq)]
pub struct Engine {
    pub table: Table,
    pub state: State,
}

/// A line being fed, with the state as its passes have moved it.
struct Work<'a> {
    table: &'a [Macro],
    open: Vec<bool>,
    /// The macros that this line has tried.
    tried: Vec<bool>,
    state: State,
    line: Vec<u8>,
    budget: u64,
    passes: u64,
    occurred: bool,
    /// Where TRACE was 1 when the line came.
    trace: Option<Trace>,
    /// The passes made, where they are asked for.
    history: Option<Vec<PassMade>>,
}

/// How a line ended: done, or as a control line.
enum Ended {
    Done,
    Control(Command),
}

enum Command {
    Add(Macro),
    Trace(bool),
    Nflag(bool),
}

impl Engine {
    /// The table given, with a fresh state.
    pub fn new(table: Table) -> Engine {
        Engine { table, state: State::fresh() }
    }

    /// Feeds one line. A refused line leaves table and state as they were.
    pub fn feed(&mut self, line: &[u8], budget: u64) -> Answer {
        self.feed_traced(line, budget).answer
    }

    /// Feeds one line; a refused one leaves the trace memory, too.
    pub fn feed_traced(&mut self, line: &[u8], budget: u64) -> Fed {
        if let Err(refusal) = look_at(line, budget) {
            let answer = Answer { kind: Kind::Refused(refusal), passes: 0 };
            return Fed { answer, trace: None };
        }
        let mut work = Work::new(&self.table, &self.state, line, budget);
        let ended = work.run();
        let Work { state, line, passes, occurred, trace, .. } = work;
        let trace = trace.filter(|_| ended.is_ok()).map(|trace| trace.text);
        let kind = match ended {
            Err(refusal) => Kind::Refused(refusal),
            Ok(Ended::Control(command)) => {
                self.state = state;
                self.obey(command);
                Kind::Control
            }
            Ok(Ended::Done) => {
                self.state = state;
                if self.state.nflag && !occurred {
                    Kind::Withheld
                } else {
                    Kind::Out(line)
                }
            }
        };
        Fed { answer: Answer { kind, passes }, trace }
    }

    /// The passes that feeding the line would make, those of a refused line
    /// up to its refusal.
    pub fn history(&self, line: &[u8], budget: u64) -> Vec<PassMade> {
        let mut work = Work::new(&self.table, &self.state, line, budget);
        work.history = Some(Vec::new());
        if look_at(line, budget).is_ok() {
            // How the line ends is not asked.
            let _ = work.run();
        }
        work.history.unwrap_or_default()
    }

    fn obey(&mut self, command: Command) {
        match command {
            Command::Add(newest) => self.table.push(newest),
            Command::Trace(on) => self.state.trace = on,
            Command::Nflag(on) => self.state.nflag = on,
        }
    }
}

/// 4, 21 and 22, in this order, before any pass.
fn look_at(line: &[u8], budget: u64) -> Result<(), Refusal> {
    if budget > BUDGET_END {
        return Err(Refusal::plain(BUDGET_TOO_LARGE));
    }
    look_at_line(line)
}

/// 21, then 22.
pub fn look_at_line(line: &[u8]) -> Result<(), Refusal> {
    if line.len() > LINE_BYTES {
        return Err(Refusal::plain(LINE_TOO_LONG));
    }
    if line.contains(&0) || line.contains(&b'\n') {
        return Err(Refusal::plain(LINE_BYTE));
    }
    Ok(())
}

impl<'a> Work<'a> {
    fn new(table: &'a [Macro], state: &State, line: &[u8], budget: u64) -> Work<'a> {
        Work {
            table,
            open: vec![true; table.len()],
            tried: vec![false; table.len()],
            state: state.clone(),
            line: line.to_vec(),
            budget,
            passes: 0,
            occurred: false,
            trace: state.trace.then(Trace::default),
            history: None,
        }
    }

    /// Passes from the newest macro to the oldest; after an occurrence again
    /// from the newest. Before each pass and at the end `$` is looked for,
    /// and only then the budget.
    fn run(&mut self) -> Result<Ended, Refusal> {
        let mut untried = self.table.len();
        loop {
            if self.line.first() == Some(&b'$') {
                return Ok(Ended::Control(self.command()?));
            }
            let Some(next) = (0..untried).rev().find(|index| self.open[*index]) else {
                return Ok(Ended::Done);
            };
            if self.passes == self.budget {
                return Err(Refusal::plain(BUDGET_USED_UP));
            }
            self.passes += 1;
            untried = if self.one_pass(next)? { self.table.len() } else { next };
        }
    }

    /// Whether the macro at `index` occurred; if so and it is `<`, it closes.
    /// On its first pass the calls before its pattern act.
    fn one_pass(&mut self, index: usize) -> Result<bool, Refusal> {
        let by = &self.table[index];
        if !self.tried[index] {
            self.tried[index] = true;
            run_calls(&by.before, &mut self.state)?;
        }
        let passed = pass(by, &self.line, &mut self.state)?;
        if let Some(history) = &mut self.history {
            let (line, occurrences) = (passed.line.clone(), passed.occurrences);
            history.push(PassMade { number: index + 1, occurrences, line });
        }
        if passed.occurrences == 0 {
            return Ok(false);
        }
        if let Some(trace) = &mut self.trace {
            trace.add(&self.line, index + 1, &passed.line)?;
        }
        self.line = passed.line;
        self.occurred = true;
        self.open[index] = by.symbol == Symbol::Equals;
        Ok(true)
    }

    /// What the control line says; 23 if it says nothing that 01 names.
    fn command(&self) -> Result<Command, Refusal> {
        if let Some(file) = self.line.strip_prefix(b"$MACRO") {
            let mut macros = read_after(file, self.table.len(), self.state.entry_bytes)?;
            return match (macros.pop(), macros.is_empty()) {
                (Some(newest), true) => Ok(Command::Add(newest)),
                _ => Err(Refusal::plain(CONTROL)),
            };
        }
        match self.line.as_slice() {
            b"$TRACE 0" => Ok(Command::Trace(false)),
            b"$TRACE 1" => Ok(Command::Trace(true)),
            b"$NFLAG 0" => Ok(Command::Nflag(false)),
            b"$NFLAG 1" => Ok(Command::Nflag(true)),
            _ => Err(Refusal::plain(CONTROL)),
        }
    }
}
