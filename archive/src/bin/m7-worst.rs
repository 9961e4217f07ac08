//! `m7-worst SEED COUNT` times single passes: chosen patterns of full length
//! over lines of full length, then COUNT random ones and changes of the slowest
//! of them. It prints milliseconds of the processor, the least of some runs, and
//! whether the slowest of all took more than a pass may take.

use m7_archive::clock::used;
use m7_archive::engine::{self, OUTPUT_BYTES, STATE_BYTES, TABLE_BYTES, TRACE_BYTES};
use m7_archive::files;
use m7_reference::generate::Random;

const LINE_BYTES: usize = 1054;
/// No pass takes longer, in milliseconds.
const MOST: f64 = 10.0;
/// What a macro has besides its pattern: quotes, `<`, the replacement's quotes and `;`.
const FRAME_BYTES: usize = 6;

/// Units without calls, and pieces of width zero.
const UNITS: [&str; 26] = [
    "a",
    "b",
    "a*",
    "b*",
    "a*-",
    "b*-",
    "?1",
    "?1*",
    "?1*-",
    "?3*-",
    "?5*",
    "[ab]*",
    "[ab]*-",
    "[~c]*-",
    "[a-z]*",
    "[~b]*-",
    "[b-z0-9A-Z]*-",
    "[~b-z]*",
    "{a*-}",
    "{?1*}",
    "{}",
    "^",
    "$",
    "{b*-a}",
    "a*-^",
    "?1*-^",
];

struct Pass {
    table: Vec<u8>,
    state: Vec<u8>,
    output: Vec<u8>,
    trace: Vec<u8>,
}

#[derive(Clone)]
struct Trial {
    units: Vec<usize>,
    last: &'static str,
    line: Vec<u8>,
}

/// As many of the units as a macro of 512 bytes holds, with at most 99 tags.
fn file_of(units: &[&str], last: &str) -> Vec<u8> {
    let (mut pattern, mut tags) = (String::new(), 0);
    for unit in units {
        let more = tags + unit.matches('{').count();
        if more <= 99 && pattern.len() + unit.len() + last.len() + FRAME_BYTES <= 512 {
            pattern.push_str(unit);
            tags = more;
        }
    }
    format!("'{pattern}{last}'<'';").into_bytes()
}

impl Pass {
    /// Milliseconds of one line with the file's one macro: one pass. None if the file is refused.
    fn time(&mut self, file: &[u8], line: &[u8]) -> Option<f64> {
        self.table.fill(0);
        if engine::read(file, &mut self.table).number != 0 {
            return None;
        }
        engine::fresh(&mut self.state);
        let begun = used();
        let (table, state) = (&mut self.table, &mut self.state);
        let answer = engine::feed(table, state, line, 1, &mut self.output, &mut self.trace);
        let spent = (used() - begun) / 1e3;
        assert_eq!((answer.number, answer.passes), (0, 1), "one pass");
        Some(spent)
    }

    fn least(&mut self, runs: usize, file: &[u8], line: &[u8]) -> f64 {
        (0..runs).filter_map(|_| self.time(file, line)).fold(f64::INFINITY, f64::min)
    }

    /// The time of a trial if it is above a bound, seen three times.
    fn above(&mut self, trial: &Trial, bound: f64) -> Option<f64> {
        let units: Vec<&str> = trial.units.iter().map(|i| UNITS[*i]).collect();
        let file = file_of(&units, trial.last);
        let first = self.time(&file, &trial.line)?;
        if first <= bound {
            return None;
        }
        let least = self.least(3, &file, &trial.line);
        (least > bound).then_some(least)
    }
}

/// A line of full length: one byte, two in turn, or random with long or short runs.
fn any_line(random: &mut Random) -> Vec<u8> {
    let letters = b"aabbc";
    match random.below(4) {
        0 => vec![letters[random.below(5)]; LINE_BYTES],
        1 => b"ab".iter().copied().cycle().take(LINE_BYTES).collect(),
        _ => {
            let run = [1, 3, 40, 400][random.below(4)];
            let mut line = Vec::new();
            while line.len() < LINE_BYTES {
                let letter = letters[random.below(5)];
                line.extend(std::iter::repeat(letter).take(1 + random.below(run)));
            }
            line.truncate(LINE_BYTES);
            line
        }
    }
}

/// Units of a few sorts, in turn or at random.
fn any_trial(random: &mut Random) -> Trial {
    let sorts: Vec<usize> = (0..1 + random.below(4)).map(|_| random.below(UNITS.len())).collect();
    let in_turn = random.below(2) == 0;
    let units = (0..506)
        .map(|i| sorts[if in_turn { i % sorts.len() } else { random.below(sorts.len()) }])
        .collect();
    Trial { units, last: ["", "c", "b", "$", "d"][random.below(5)], line: any_line(random) }
}

/// The trial with some units replaced or moved, or with another line.
fn changed(trial: &Trial, random: &mut Random) -> Trial {
    let mut other = trial.clone();
    match random.below(3) {
        0 => other.line = any_line(random),
        1 => {
            let unit = random.below(UNITS.len());
            let (from, size) = (random.below(500), 1 + random.below(100));
            other.units.iter_mut().skip(from).take(size).for_each(|place| *place = unit);
        }
        _ => {
            let by = random.below(506);
            other.units.rotate_left(by);
        }
    }
    other
}

/// The slowest of the chosen patterns.
fn chosen(pass: &mut Pass) -> f64 {
    let long_class = format!("[{}a]*-", "bcdefghij".repeat(5));
    let long_not = format!("[~{}]*-", "bcdefghij".repeat(5));
    let run = format!("a*-{}", "a".repeat(100));
    let two = [
        ("a*-", "b"),
        ("a*", "b"),
        ("{a*-}", "b"),
        ("[ab]*-", "c"),
        ("?1*-", "\\n"),
        ("a", "b"),
        ("?1", "\\n"),
        ("[b-za]*-", "B"),
        ("[~b-z]*-", "b"),
        ("[~b]*", "c"),
        (&long_class, "B"),
        (&long_not, "B"),
        (&run, "b"),
        ("a*-a", "b"),
        ("a*-aaa", "b"),
        ("?1*-a", "b"),
        ("a*b*-", "c"),
        ("a*-b*", "c"),
        ("a*-?1*", "c"),
        ("a*-^", "b"),
        ("a*-^", "a*"),
        ("?1*-^", "b"),
        ("{a*-}{}", "b"),
        ("{?1*-a}", "b"),
        ("a*-b*-", "c"),
        ("a*b*", "c"),
        ("ab", "c"),
        ("a*-$", "b"),
        ("{}a*-", "c"),
        ("{?1*}", "\\n"),
        ("[~b]*-a", "c"),
    ];
    let alike = |text: &[u8]| text.iter().copied().cycle().take(LINE_BYTES).collect::<Vec<u8>>();
    let lines = [("a", alike(b"a")), ("ab", alike(b"ab")), ("b", alike(b"b"))];
    let mut most = pass.least(5, &files::nested_closures(), &lines[0].1);
    println!("{most:9.3} ms  nested");
    for (unit, last) in two {
        let file = file_of(&vec![unit; 506], last);
        for (name, line) in &lines {
            let shown: String = unit.chars().take(20).collect();
            let spent = pass.least(5, &file, line);
            println!("{spent:9.3} ms  {shown} .. {last}  on {name}");
            most = most.max(spent);
        }
    }
    most
}

fn main() {
    let words: Vec<u64> = std::env::args().skip(1).filter_map(|word| word.parse().ok()).collect();
    let [seed, count] = words[..] else { panic!("m7-worst SEED COUNT") };
    let mut pass = Pass {
        table: vec![0; TABLE_BYTES],
        state: vec![0; STATE_BYTES],
        output: vec![0; OUTPUT_BYTES],
        trace: vec![0; TRACE_BYTES],
    };
    let slowest_chosen = chosen(&mut pass);
    let mut random = Random::new(seed);
    let (mut slowest, mut most) = (any_trial(&mut random), 0.0);
    for i in 0..count {
        let trial =
            if i % 2 == 0 { any_trial(&mut random) } else { changed(&slowest, &mut random) };
        if let Some(spent) = pass.above(&trial, most) {
            (slowest, most) = (trial, spent);
        }
    }
    let units: Vec<&str> = slowest.units.iter().map(|i| UNITS[*i]).collect();
    let file = file_of(&units, slowest.last);
    let again = pass.least(20, &file, &slowest.line);
    println!("{again:9.3} ms  the slowest of {count} random ones ({most:.3} when it was found):");
    println!("{}", String::from_utf8_lossy(&file));
    println!("on {}", String::from_utf8_lossy(&slowest.line));
    let all = slowest_chosen.max(again);
    let says = if all <= MOST { "within" } else { "MORE THAN" };
    println!("the slowest pass took {all:.3} ms, {says} the {MOST} ms that a pass may take");
}
