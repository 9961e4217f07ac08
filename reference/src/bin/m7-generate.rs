//! `m7-generate SEED COUNT` prints generated cases as protocol commands;
//! with the word `words` after them, lines to look up words in.

use m7_reference::generate::{any_case, any_file, any_look, bound_case, Random};
use m7_reference::protocol::hex;
use std::io::{self, BufWriter, Write};

/// The arguments SEED and COUNT, and what to print.
fn arguments() -> Option<(u64, usize, String)> {
    let mut words = std::env::args().skip(1);
    let seed = words.next()?.parse().ok()?;
    let count = words.next()?.parse().ok()?;
    let sort = words.next().unwrap_or_default();
    (words.next().is_none() && ["", "words"].contains(&sort.as_str()))
        .then_some((seed, count, sort))
}

/// Of ten cases four are files alone, five have lines, and one is near a
/// bound.
fn print(random: &mut Random, case: usize, output: &mut impl Write) -> io::Result<()> {
    let case = match case % 10 {
        0..=3 => {
            let file = any_file(random);
            return writeln!(output, "read {}\nwrite\nspell", hex(&file));
        }
        4 => bound_case(random),
        _ => any_case(random, 5, 6),
    };
    writeln!(output, "read {}\nfresh", hex(&case.file))?;
    for (budget, line) in &case.lines {
        writeln!(output, "feed {budget} {}\ntrace", hex(line))?;
    }
    writeln!(output, "state\nwrite")
}

fn main() -> io::Result<()> {
    let Some((seed, count, sort)) = arguments() else {
        eprintln!("usage: m7-generate SEED COUNT [words]");
        std::process::exit(2);
    };
    let mut random = Random::new(seed);
    let mut output = BufWriter::new(io::stdout().lock());
    for case in 0..count {
        if sort == "words" {
            let (line, pattern) = any_look(&mut random);
            writeln!(output, "words {} {}", hex(&line), hex(&pattern))?;
        } else {
            print(&mut random, case, &mut output)?;
        }
    }
    output.flush()
}
