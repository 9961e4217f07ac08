//! `m7-cases SEED COUNT` prints small cases with this engine's answers.

use m7_reference::cases::case_lines;
use std::io::{self, BufWriter, Write};

fn main() -> io::Result<()> {
    let words: Vec<String> = std::env::args().skip(1).collect();
    let numbers: Vec<u64> = words.iter().filter_map(|word| word.parse().ok()).collect();
    let (2, [seed, count]) = (words.len(), numbers.as_slice()) else {
        eprintln!("usage: m7-cases SEED COUNT");
        std::process::exit(2);
    };
    let mut output = BufWriter::new(io::stdout().lock());
    for line in case_lines(*seed, *count as usize) {
        writeln!(output, "{line}")?;
    }
    output.flush()
}
