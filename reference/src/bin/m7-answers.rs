//! `m7-answers FILE...` prints stored answers as protocol commands, so that
//! any engine that serves the protocol can be run on them.

use m7_reference::answers::{parse, Case, Check, RecoverCheck, WordCheck};
use m7_reference::protocol::hex;
use std::io::{self, BufWriter, Write};

fn print(case: &Case, output: &mut impl Write) -> io::Result<()> {
    writeln!(output, "read {}\nfresh", hex(&case.file))?;
    let mut pattern = "-".to_string();
    for (_, check) in &case.checks {
        match check {
            Check::Line(budget, line) => writeln!(output, "feed {budget} {}", hex(line))?,
            Check::Written(_) | Check::WrittenBytes(_) | Check::WritingRefused(_) => {
                writeln!(output, "write")?
            }
            Check::Narrow | Check::NarrowRefused(_) => writeln!(output, "narrow")?,
            Check::Widen => writeln!(output, "widen")?,
            Check::Recover(RecoverCheck::Kept(_) | RecoverCheck::Refused(_)) => {
                writeln!(output, "recover {}", hex(&case.file))?
            }
            Check::Takes(_) => writeln!(output, "measure {}", hex(&case.file))?,
            Check::Traced(_) => writeln!(output, "trace")?,
            Check::Shortest(..) => writeln!(output, "spell")?,
            Check::SameAs(file) | Check::DiffersFrom(file) => {
                writeln!(output, "read {}\nwrite\nread {}", hex(file), hex(&case.file))?;
            }
            Check::Words(WordCheck::Pattern(text)) => pattern = hex(text),
            Check::Words(WordCheck::Look(line)) => {
                writeln!(output, "words {} {pattern}", hex(line))?
            }
            _ => {}
        }
    }
    writeln!(output, "state")
}

fn main() -> io::Result<()> {
    let mut output = BufWriter::new(io::stdout().lock());
    for name in std::env::args().skip(1) {
        let text = std::fs::read_to_string(&name)?;
        let cases = parse(&text).map_err(|error| io::Error::other(format!("{name}: {error}")))?;
        // The old engine has no commands.
        for case in cases.iter().filter(|case| !case.old) {
            print(case, &mut output)?;
        }
    }
    output.flush()
}
