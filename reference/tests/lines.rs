//! Properties of lists of lines.

#[allow(dead_code)]
mod naive;

use m7_reference::generate::{any_case, any_table, bound_case, Random};
use m7_reference::line::{Answer, Engine, Fed, Kind};
use m7_reference::macros::{Macro, Symbol};
use m7_reference::read::read_file;
use m7_reference::refusal::Refusal;
use m7_reference::spell::some_file_spells;
use m7_reference::state::{Counter, Stack, State};

const LISTS: usize = 12_000;
const BUDGET_LISTS: usize = 4_000;
const SMALL: usize = 15_000;

fn number_of(answer: &Answer) -> u8 {
    match &answer.kind {
        Kind::Refused(refusal) => refusal.number,
        _ => 0,
    }
}

#[test]
fn refused_lines_change_nothing() {
    let mut random = Random::new(7);
    let mut seen = [0; 37];
    for list in 0..LISTS {
        let case = match list % 20 {
            0 => bound_case(&mut random),
            _ => any_case(&mut random, 4, 6),
        };
        let mut engine = Engine::new(read_file(&case.file).unwrap_or_default());
        for (budget, line) in &case.lines {
            let before = engine.clone();
            let answer = engine.feed(line, *budget);
            seen[number_of(&answer) as usize] += 1;
            if number_of(&answer) != 0 {
                assert_eq!(engine, before);
            }
        }
    }
    println!("answers by number, 0 for lines taken: {seen:?}");
    let wanted = [0, 4, 12, 13, 14, 15, 16, 19, 21, 22, 23, 31, 32, 33, 34, 35, 36];
    assert!(wanted.iter().all(|number| seen[*number] > 0), "{seen:?}");
}

fn within_bounds(state: &State) -> bool {
    let stack = |stack: &Stack| {
        let entry = |entry: &Vec<u8>| entry.len() <= 100 && !entry.contains(&0);
        (1..=20).contains(&stack.pointer) && stack.entries.iter().all(entry)
    };
    let number = |number: u64| (1..=999_999_999).contains(&number);
    let counter = |counter: &Counter| number(counter.value) && number(counter.increment);
    state.stacks.iter().all(stack) && state.counters.iter().all(counter)
}

/// Table, state and text stay within the bounds, and the next line may get
/// them.
#[test]
fn what_comes_out_is_within_the_bounds() {
    let mut random = Random::new(11);
    for list in 0..LISTS / 4 {
        let case = match list % 3 {
            0 => bound_case(&mut random),
            _ => any_case(&mut random, 4, 6),
        };
        let mut engine = Engine::new(read_file(&case.file).unwrap_or_default());
        for (budget, line) in &case.lines {
            let answer = engine.feed(line, *budget);
            assert!(within_bounds(&engine.state));
            assert!(engine.table.len() <= 96 && engine.table.iter().all(some_file_spells));
            assert!(answer.passes <= *budget);
            if let Kind::Out(text) = &answer.kind {
                assert!(text.len() <= 1_054 && !text.contains(&0));
                assert!(text.first() != Some(&b'$'));
            }
        }
    }
}

/// Budgets below the passes: all of them, or of many the first, some and the last.
fn smaller_budgets(random: &mut Random, passes: u64) -> Vec<u64> {
    if passes <= 40 {
        return (0..passes).collect();
    }
    let some = |random: &mut Random| random.below(passes as usize) as u64;
    vec![0, 1, some(random), some(random), passes - 1]
}

/// 02, N10: an answer other than 4 and 31 is the same under its passes as the
/// budget and under every larger one; every smaller one gives 31.
#[test]
fn a_larger_budget_gives_the_same_answer() {
    let mut random = Random::new(8);
    let (mut lines, mut fed, mut seen) = (0, 0, [0; 37]);
    for list in 0..BUDGET_LISTS {
        let case = match list % 8 {
            0 => bound_case(&mut random),
            _ => any_case(&mut random, 4, 4),
        };
        let mut engine = Engine::new(read_file(&case.file).unwrap_or_default());
        for (budget, line) in &case.lines {
            let before = engine.clone();
            let told = engine.feed_traced(line, *budget);
            let (number, passes) = (number_of(&told.answer), told.answer.passes);
            if matches!(number, 4 | 31) {
                continue;
            }
            (lines, seen[number as usize]) = (lines + 1, seen[number as usize] + 1);
            let more = passes + random.below(1_000_001 - passes as usize) as u64;
            for enough in [passes, passes + 1, more, 1_000_000] {
                let mut other = before.clone();
                assert_eq!(other.feed_traced(line, enough.min(1_000_000)), told);
                assert_eq!(other, engine);
                fed += 1;
            }
            for smaller in smaller_budgets(&mut random, passes) {
                let kind = Kind::Refused(Refusal::plain(31));
                let wanted = Fed { answer: Answer { kind, passes: smaller }, trace: None };
                let mut other = before.clone();
                assert_eq!(other.feed_traced(line, smaller), wanted);
                assert_eq!(other, before);
                fed += 1;
            }
        }
    }
    println!("{lines} lines under {fed} budgets; by number, 0 for lines taken: {seen:?}");
    assert!([0, 12, 16, 19, 21, 22, 23, 32, 33, 34, 35, 36].iter().all(|number| seen[*number] > 0));
}

/// Longer lines have too many divisions to list.
const TRIED: usize = 9;

/// How many lines showed what 02, N2 says of calls before a pattern.
#[derive(Debug, Default)]
struct Seen {
    /// They ran, and one of them ended the line with 34.
    ran: usize,
    stopped: usize,
    /// A macro still open fits the final text under the final state, but not
    /// under the state of its last try.
    fits_now: usize,
}

/// A line by the words of demand 3, without control lines.
struct Naive<'a> {
    table: &'a [Macro],
    state: State,
    line: Vec<u8>,
    open: Vec<bool>,
    /// Macros that have passed without an occurrence since the last one.
    passed_over: Vec<bool>,
    passes: u64,
    /// The state in which each macro's last pass tried place 0.
    last_try: Vec<Option<State>>,
    /// The lines of each pass with an occurrence.
    trace: Vec<u8>,
    seen: &'a mut Seen,
}

impl Naive<'_> {
    /// The newest open macro that has yet to pass.
    fn next(&self) -> Option<usize> {
        (0..self.table.len()).rev().find(|at| self.open[*at] && !self.passed_over[*at])
    }

    fn pass(&mut self, at: usize) -> Result<(), Refusal> {
        self.passes += 1;
        if self.last_try[at].is_none() {
            self.seen.ran += usize::from(!self.table[at].before.is_empty());
            let ran = naive::run_before(&self.table[at], &mut self.state);
            self.seen.stopped += usize::from(ran.is_err());
            ran?;
        }
        self.last_try[at] = Some(self.state.clone());
        let (line, occurrences) = naive::pass(&self.table[at], &self.line, &mut self.state)?;
        if occurrences == 0 {
            self.passed_over[at] = true;
            return Ok(());
        }
        let (old, new) = (std::mem::replace(&mut self.line, line), &self.line);
        let texts = [old, (at + 1).to_string().into_bytes(), new.clone()];
        for (word, text) in ["oldline:", "macro #:", "newline:"].iter().zip(texts) {
            self.trace.extend([word.as_bytes(), &text, b"\n"].concat());
        }
        self.passed_over.fill(false);
        self.open[at] = self.table[at].symbol == Symbol::Equals;
        Ok(())
    }

    /// The kind of answer; none where the line cannot be tried.
    fn run(&mut self, budget: u64) -> Option<Kind> {
        while let Some(at) = self.next() {
            if self.line.len() > TRIED || self.line.first() == Some(&b'$') {
                return None;
            }
            if self.passes == budget {
                return Some(Kind::Refused(Refusal::plain(31)));
            }
            if let Err(refusal) = self.pass(at) {
                return Some(Kind::Refused(refusal));
            }
        }
        let tried = self.line.len() <= TRIED && self.line.first() != Some(&b'$');
        tried.then(|| Kind::Out(self.line.clone()))
    }

    /// Whether a macro has a division at any place of the text under a state.
    fn fits(&self, at: usize, state: &State) -> bool {
        let pattern = &self.table[at].pattern;
        let chosen = |place| naive::chosen(pattern, &self.line, place, state);
        (0..=self.line.len()).any(|place| chosen(place).is_some())
    }

    /// No macro still open fits the final text under the state of its last try.
    fn no_division_is_left(&mut self) {
        let open: Vec<usize> = (0..self.table.len()).filter(|at| self.open[*at]).collect();
        for at in &open {
            let state = self.last_try[*at].as_ref().expect("each open macro was tried");
            assert!(!self.fits(*at, state), "{:?} on {:?}", self.table, self.line);
        }
        self.seen.fits_now += usize::from(open.iter().any(|at| self.fits(*at, &self.state)));
    }
}

/// The answer and the trace, and the state after it; none where the line
/// cannot be tried.
fn naive_line(engine: &Engine, line: &[u8], budget: u64, seen: &mut Seen) -> Option<(Fed, State)> {
    let mut naive = Naive {
        table: &engine.table,
        state: engine.state.clone(),
        line: line.to_vec(),
        open: vec![true; engine.table.len()],
        passed_over: vec![false; engine.table.len()],
        passes: 0,
        last_try: vec![None; engine.table.len()],
        trace: Vec::new(),
        seen,
    };
    let kind = naive.run(budget)?;
    let refused = matches!(kind, Kind::Refused(_));
    if !refused {
        naive.no_division_is_left();
    }
    let state = if refused { engine.state.clone() } else { naive.state };
    let trace = (engine.state.trace && !refused).then_some(naive.trace);
    Some((Fed { answer: Answer { kind, passes: naive.passes }, trace }, state))
}

#[test]
fn lines_are_those_of_demand_3() {
    let mut random = Random::new(9);
    let (mut compared, mut seen) = (0, Seen::default());
    for _ in 0..SMALL {
        let count = 1 + random.below(3);
        let mut engine = Engine::new(any_table(&mut random, false, count));
        engine.state.trace = random.one_in(2);
        for _ in 0..3 {
            let length = random.below(6);
            let line: Vec<u8> = (0..length).map(|_| *random.pick(b"aaaaaab1-\xe9")).collect();
            let naive = naive_line(&engine, &line, 12, &mut seen);
            let fed = engine.feed_traced(&line, 12);
            if let Some((wanted, state)) = naive {
                assert_eq!(fed, wanted, "{:?} on {line:?}", engine.table);
                assert_eq!(engine.state, state);
                compared += 1;
            }
        }
    }
    println!("{compared} lines compared; {seen:?}");
    assert!(compared > SMALL && [seen.ran, seen.stopped, seen.fits_now].iter().all(|n| *n > 40));
}
