//! `#(i:n)`: quotient and remainder (02, N7).

use m7_reference::generate::Random;
use m7_reference::line::{Engine, Kind};
use m7_reference::read::read_file;

const END: u64 = 999_999_999;

/// The quotient and remainder that a line has after `#(b:n)`.
fn inserted(value: u64, n: u64) -> (String, String) {
    let file = format!("'a'<'#(b:{n})';");
    let mut engine = Engine::new(read_file(file.as_bytes()).unwrap());
    engine.state.counter_mut(b'b').value = value;
    let before = engine.clone();
    let Kind::Out(text) = engine.feed(b"a", 1).kind else { panic!("a line that goes out") };
    assert_eq!(engine, before);
    let text = String::from_utf8(text).unwrap();
    let (quotient, remainder) = text.split_once(' ').unwrap();
    (quotient.to_string(), remainder.to_string())
}

/// Bars set one after the other, n to a system: how many systems are full,
/// and how many bars stand in the next.
#[test]
fn bars_counted_into_systems() {
    for n in 1..=60 {
        let (mut full, mut bars) = (0, 0);
        for value in 1..=200 {
            bars += 1;
            if bars == n {
                (full, bars) = (full + 1, 0);
            }
            assert_eq!(inserted(value, n), (full.to_string(), bars.to_string()));
        }
    }
}

#[test]
fn quotient_times_n_plus_remainder_is_the_value() {
    let mut random = Random::new(14);
    let any = |random: &mut Random| match random.below(4) {
        0 => 1 + random.below(END as usize) as u64,
        1 => 1 + random.below(100_000) as u64,
        2 => 1 + random.below(20) as u64,
        _ => END - random.below(3) as u64,
    };
    for _ in 0..20_000 {
        let (value, n) = (any(&mut random), any(&mut random));
        let (quotient, remainder) = inserted(value, n);
        let number = |digits: &str| {
            let number: u64 = digits.parse().unwrap();
            assert_eq!(number.to_string(), digits);
            number
        };
        assert_eq!(number(&quotient) * n + number(&remainder), value);
        assert!(number(&remainder) < n);
    }
}
