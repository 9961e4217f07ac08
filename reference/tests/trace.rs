//! The trace against the passes made (02, N1).

use m7_reference::generate::{any_case, bound_case, Random};
use m7_reference::line::{Answer, Engine, Fed, Kind};
use m7_reference::read::read_file;
use m7_reference::refusal::Refusal;

const LISTS: usize = 20_000;
const MEMORY: usize = 65_536;

/// The engine with TRACE as given.
fn with_flag(engine: &Engine, on: bool) -> Engine {
    let mut other = engine.clone();
    other.state.trace = on;
    other
}

/// The lines that the passes with an occurrence give, one text for each.
fn all_lines(engine: &Engine, line: &[u8], budget: u64) -> Vec<(usize, Vec<u8>)> {
    let mut before = line.to_vec();
    let mut lines = Vec::new();
    for (index, made) in engine.history(line, budget).into_iter().enumerate() {
        if made.occurrences > 0 {
            let number = made.number.to_string().into_bytes();
            let texts = [
                &b"oldline:"[..],
                &before,
                b"\nmacro #:",
                &number,
                b"\nnewline:",
                &made.line,
                b"\n",
            ];
            lines.push((index + 1, texts.concat()));
        }
        before = made.line;
    }
    lines
}

/// What a line gives under TRACE 1, from what it gives under TRACE 0.
fn traced(off: &Answer, lines: &[(usize, Vec<u8>)]) -> Fed {
    let mut text = Vec::new();
    for (pass, three) in lines {
        text.extend_from_slice(three);
        if text.len() > MEMORY {
            let kind = Kind::Refused(Refusal::plain(36));
            return Fed { answer: Answer { kind, passes: *pass as u64 }, trace: None };
        }
    }
    let refused = matches!(off.kind, Kind::Refused(_));
    Fed { answer: off.clone(), trace: (!refused).then_some(text) }
}

#[test]
fn trace_holds_each_pass_with_an_occurrence() {
    let mut random = Random::new(13);
    let (mut compared, mut written, mut full, mut most) = (0, 0, 0, 0);
    for list in 0..LISTS {
        let case = match list % 8 {
            0 => bound_case(&mut random),
            _ => any_case(&mut random, 4, 6),
        };
        let mut engine = Engine::new(read_file(&case.file).unwrap_or_default());
        for (budget, line) in &case.lines {
            let (mut off, mut on) = (with_flag(&engine, false), with_flag(&engine, true));
            let lines = all_lines(&off, line, *budget);
            let without = off.feed_traced(line, *budget);
            let with = on.feed_traced(line, *budget);
            assert_eq!(without.trace, None);
            assert_eq!(with, traced(&without.answer, &lines));
            if with.answer == without.answer {
                let control = with.answer.kind == Kind::Control;
                let flag = if control { on.state.trace } else { true };
                assert_eq!(with_flag(&off, flag), on);
            } else {
                assert_eq!(on, with_flag(&engine, true));
                full += 1;
            }
            compared += 1;
            let length = with.trace.as_ref().map_or(0, Vec::len);
            written += (length > 0) as usize;
            most = most.max(length);
            engine.feed(line, *budget);
        }
    }
    println!("{compared} lines, {written} with a trace, {full} times 36, at most {most} bytes");
    assert!(written > LISTS / 2 && full > 50 && most == MEMORY);
}
