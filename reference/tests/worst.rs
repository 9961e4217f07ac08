//! No pattern of 512 bytes takes more than a second at any place of a line
//! of 1,054 bytes.

use m7_reference::line::Engine;
use m7_reference::matching::Matcher;
use m7_reference::read::read_file;
use m7_reference::state::State;
use std::time::{Duration, Instant};

const LINE: usize = 1_054;

/// A macro of at most 512 bytes whose pattern has `unit` as often as it can;
/// 99 times if it is a tag.
fn full_macro(unit: &str, last: &str) -> Vec<u8> {
    let fitting = (512 - 6 - last.len()) / unit.len();
    let times = if unit.starts_with('{') { fitting.min(99) } else { fitting };
    format!("'{}{last}'<'';", unit.repeat(times)).into_bytes()
}

fn state() -> State {
    let mut state = State::fresh();
    state.stack_mut(b'a').store(b"a");
    state.stack_mut(b'b').store(&[b'a'; 99]);
    state.counter_mut(b'c').value = 1;
    state
}

#[test]
fn no_place_takes_a_second() {
    let units = ["a*", "a*-", "?1*", "?1*-", "[ab]*-", "[~b]*", "&(a)*-", "&(b)*-", "{a*-}"];
    let mut slowest = Duration::ZERO;
    for unit in units {
        for last in ["b", "$", "ab", "bb", "^"] {
            let pattern = read_file(&full_macro(unit, last)).unwrap().remove(0).pattern;
            for line in [vec![b'a'; LINE], [vec![b'a'; LINE - 1], vec![b'c']].concat()] {
                let state = state();
                for place in [0, 1, 500, LINE] {
                    let start = Instant::now();
                    Matcher::new(&pattern, &line, &state).choose(place);
                    slowest = slowest.max(start.elapsed());
                }
            }
        }
    }
    println!("slowest place: {slowest:?}");
    assert!(slowest < Duration::from_secs(1));
}

#[test]
fn no_pass_without_an_occurrence_takes_a_second() {
    for unit in ["a*-", "?1*-", "&(a)*-", "{a*-}"] {
        let mut engine = Engine::new(read_file(&full_macro(unit, "b")).unwrap());
        engine.state = state();
        let start = Instant::now();
        engine.feed(&[b'a'; LINE], 1);
        println!("{unit}: {:?}", start.elapsed());
        assert!(start.elapsed() < Duration::from_secs(1));
    }
}
