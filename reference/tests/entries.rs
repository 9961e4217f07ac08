//! The old engine and the new one side by side (02, N6).

use m7_reference::generate::{any_case, any_file, bound_case, entry_case, Random};
use m7_reference::line::{Answer, Engine, Kind};
use m7_reference::read::{read_after, read_file};
use m7_reference::refusal::Refusal;
use m7_reference::state::State;

const LISTS: usize = 15_000;
const FILES: usize = 60_000;

fn number_of(answer: &Answer) -> u8 {
    match &answer.kind {
        Kind::Refused(refusal) => refusal.number,
        _ => 0,
    }
}

/// Counts of what was seen.
#[derive(Debug, Default)]
struct Seen {
    lines: usize,
    ended_by_16: usize,
    ended_by_33: usize,
    longest: usize,
}

fn longest_entry(state: &State) -> usize {
    let entries = state.stacks.iter().flat_map(|stack| &stack.entries);
    entries.map(Vec::len).max().unwrap_or(0)
}

/// Old to new to old gives the same.
fn there_and_back(old: &State) {
    assert_eq!(old.widen().narrow().as_ref(), Ok(old));
}

/// The new engine with the old one's table, and its state widened.
fn widened(old: &Engine) -> Engine {
    Engine { table: old.table.clone(), state: old.state.widen() }
}

/// Feeds a list to the old engine and to the new one from the widened state.
/// A line for which the old one says 16 or 33 ends a list and begins another.
fn side_by_side(old: &mut Engine, lines: &[(u64, Vec<u8>)], seen: &mut Seen) {
    let mut new = widened(old);
    for (budget, line) in lines {
        let told = old.feed_traced(line, *budget);
        match number_of(&told.answer) {
            16 => seen.ended_by_16 += 1,
            33 => seen.ended_by_33 += 1,
            _ => {
                assert_eq!(new.feed_traced(line, *budget), told);
                assert_eq!(new.table, old.table);
                assert_eq!(new.state, old.state.widen());
                there_and_back(&old.state);
                seen.lines += 1;
                seen.longest = seen.longest.max(longest_entry(&old.state));
                continue;
            }
        }
        new = widened(old);
    }
}

#[test]
fn the_new_engine_answers_as_the_old_one() {
    let mut random = Random::new(17);
    let mut seen = Seen::default();
    let mut state = State::fresh_old();
    for _ in 0..LISTS {
        let case = match random.below(8) {
            0..=3 => any_case(&mut random, 4, 6),
            4 => bound_case(&mut random),
            _ => entry_case(&mut random),
        };
        let Ok(table) = read_after(&case.file, 0, 50) else {
            continue;
        };
        if random.one_in(4) {
            state = State::fresh_old();
        }
        let mut old = Engine { table, state };
        side_by_side(&mut old, &case.lines, &mut seen);
        state = old.state;
    }
    println!("{seen:?}");
    assert!(seen.lines > LISTS && seen.ended_by_16 > 1_000 && seen.ended_by_33 > 1_000);
    assert_eq!(seen.longest, 50);
}

/// A tag of `length` bytes, stored; then texts of as many, in a replacement, as
/// a command and before a pattern.
fn lines_of(length: usize) -> [(u8, String); 4] {
    let text = "x".repeat(length);
    [
        (33, "a".repeat(length)),
        (16, format!("$MACRO 'b'<'&(b:{text}:)';")),
        (16, format!("$MACRO 'c'<''&(c:{text}:);")),
        (16, format!("$MACRO &(d:{text}:)'d'<'';")),
    ]
}

#[test]
fn both_bounds_hold_at_each_length() {
    let table = read_file(b"'{a*}'<'[&(t)]'&(1,t);").unwrap();
    for length in (0..=3).chain(48..=53).chain(97..=104) {
        let mut old = Engine { table: table.clone(), state: State::fresh_old() };
        for (number, line) in lines_of(length) {
            let mut new = widened(&old);
            let (told, now) = (old.feed(line.as_bytes(), 99), new.feed(line.as_bytes(), 99));
            assert_eq!(number_of(&told), if length <= 50 { 0 } else { number }, "{line}");
            assert_eq!(number_of(&now), if length <= 100 { 0 } else { number }, "{line}");
            assert!(length > 50 || (now == told && new == widened(&old)), "{line}");
        }
        let mut seen = Seen::default();
        side_by_side(&mut old, &[(99, b"bcd".to_vec()), (99, b"a".to_vec())], &mut seen);
        assert_eq!(seen.lines, 2);
    }
}

#[test]
fn a_file_that_the_old_engine_reads_is_read_alike() {
    let mut random = Random::new(19);
    let (mut alike, mut longer) = (0, 0);
    for _ in 0..FILES {
        let file = match random.one_in(4) {
            true => entry_case(&mut random).file,
            false => any_file(&mut random),
        };
        let old = read_after(&file, 0, 50);
        if matches!(&old, Err(refusal) if refusal.number == 16) {
            longer += (read_file(&file) != old) as usize;
        } else {
            assert_eq!(read_file(&file), old);
            alike += 1;
        }
    }
    println!("{alike} files alike, {longer} with a text over 50");
    assert!(alike > FILES / 2 && longer > 1_000);
}

#[test]
fn going_back_is_refused_exactly_with_an_entry_over_50() {
    let mut random = Random::new(18);
    let (mut back, mut refused, mut longest) = (0, 0, 0);
    for _ in 0..LISTS {
        let case = entry_case(&mut random);
        let Ok(table) = read_file(&case.file) else {
            continue;
        };
        let mut new = Engine::new(table);
        for (budget, line) in &case.lines {
            new.feed(line, *budget);
            longest = longest.max(longest_entry(&new.state));
            match new.state.narrow() {
                Ok(old) => {
                    assert!(longest_entry(&new.state) <= 50);
                    assert_eq!(old.widen(), new.state);
                    there_and_back(&old);
                    back += 1;
                }
                Err(refusal) => {
                    assert!(longest_entry(&new.state) > 50);
                    assert_eq!(refusal, Refusal::plain(42));
                    refused += 1;
                }
            }
        }
    }
    println!("{back} states went back, {refused} times 42, longest entry {longest}");
    assert!(back > LISTS / 2 && refused > LISTS / 2 && longest == 100);
}

#[test]
fn both_sizes() {
    assert_eq!(State::fresh().memory_bytes(), 52_236);
    assert_eq!(State::fresh_old().memory_bytes(), 26_236);
    assert_eq!(State::fresh_old().widen(), State::fresh());
}
