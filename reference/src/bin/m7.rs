//! 01, part 8: the program. Macros from `parts.m7` in the working directory,
//! lines from standard input, lines that go out to standard output.

use m7_reference::bounds::{LINE_BYTES, PROGRAM_BUDGET};
use m7_reference::line::{Engine, Kind};
use m7_reference::read::read_file;
use std::io::{self, BufRead, BufWriter, Write};

/// Takes a line up to its line feed or the end of the input. Of a line that
/// is too long one byte too many is kept: its length alone decides (21).
fn next_line(input: &mut impl BufRead) -> io::Result<Option<Vec<u8>>> {
    let mut line = Vec::new();
    let mut begun = false;
    loop {
        let held = input.fill_buf()?;
        if held.is_empty() {
            return Ok(begun.then_some(line));
        }
        begun = true;
        let end = held.iter().position(|byte| *byte == b'\n');
        let piece = &held[..end.unwrap_or(held.len())];
        let room = LINE_BYTES + 1 - line.len();
        line.extend_from_slice(&piece[..piece.len().min(room)]);
        let taken = piece.len() + end.is_some() as usize;
        input.consume(taken);
        if end.is_some() {
            return Ok(Some(line));
        }
    }
}

fn run(input: &mut impl BufRead, output: &mut impl Write) -> io::Result<()> {
    let Ok(file) = std::fs::read("parts.m7") else {
        return writeln!(output, "! 0 0");
    };
    let table = match read_file(&file) {
        Ok(table) => table,
        Err(refusal) => return writeln!(output, "! {} 0", refusal.number),
    };
    let mut engine = Engine::new(table);
    let mut number = 0u64;
    while let Some(line) = next_line(input)? {
        number += 1;
        match engine.feed(&line, PROGRAM_BUDGET).kind {
            Kind::Out(text) => {
                output.write_all(&text)?;
                output.write_all(b"\n")?;
            }
            Kind::Refused(refusal) => writeln!(output, "! {} {number}", refusal.number)?,
            Kind::Withheld | Kind::Control => {}
        }
    }
    Ok(())
}

fn main() -> io::Result<()> {
    let mut output = BufWriter::new(io::stdout().lock());
    run(&mut io::stdin().lock(), &mut output)?;
    output.flush()
}
