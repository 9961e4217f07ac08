//! A host in Rust: reads a macro file, feeds the lines of standard input, and
//! prints what becomes of each. It needs rustc and the library alone:
//!
//!     rustc -O examples/host.rs -L DIR/lib -l static=m7
//!     host TABLE < LINES

use std::ffi::{c_char, CStr};
use std::io::{self, BufRead, Read, Write};
use std::process::ExitCode;

// The kind and the answer of include/m7.h.
const OUT: u32 = 1;

#[repr(C)]
struct Answer {
    number: u32,
    place: u32,
    passes: u32,
    kind: u32,
    length: u32,
}

extern "C" {
    fn m7_read(file: *const u8, file_size: usize, table: *mut u8, table_size: usize) -> Answer;
    fn m7_fresh(state: *mut u8, state_size: usize) -> Answer;
    fn m7_feed(
        table: *mut u8,
        table_size: usize,
        state: *mut u8,
        state_size: usize,
        line: *const u8,
        line_size: usize,
        budget: u32,
        output: *mut u8,
        output_size: usize,
        trace: *mut u8,
        trace_size: usize,
    ) -> Answer;
    fn m7_meaning(number: u32) -> *const c_char;
    fn m7_table_bytes() -> usize;
    fn m7_state_bytes() -> usize;
    fn m7_output_bytes() -> usize;
    fn m7_trace_bytes() -> usize;
    fn m7_file_bytes() -> usize;
}

/// The memories that are lent. Each is a Vec of its own, so they never overlap.
struct Engine {
    table: Vec<u8>,
    state: Vec<u8>,
    output: Vec<u8>,
    trace: Vec<u8>,
}

impl Engine {
    /// The table of a macro file with a fresh state, or the refusal.
    fn new(file: &[u8]) -> Result<Engine, Answer> {
        let mut table = vec![0; unsafe { m7_table_bytes() }];
        let mut state = vec![0; unsafe { m7_state_bytes() }];
        let output = vec![0; unsafe { m7_output_bytes() }];
        let trace = vec![0; unsafe { m7_trace_bytes() }];
        let read = unsafe { m7_read(file.as_ptr(), file.len(), table.as_mut_ptr(), table.len()) };
        if read.number != 0 {
            return Err(read);
        }
        unsafe { m7_fresh(state.as_mut_ptr(), state.len()) };
        Ok(Engine { table, state, output, trace })
    }

    fn feed(&mut self, line: &[u8], budget: u32) -> Answer {
        let (table, state, output) = (&mut self.table, &mut self.state, &mut self.output);
        let trace = &mut self.trace;
        unsafe {
            m7_feed(
                table.as_mut_ptr(),
                table.len(),
                state.as_mut_ptr(),
                state.len(),
                line.as_ptr(),
                line.len(),
                budget,
                output.as_mut_ptr(),
                output.len(),
                trace.as_mut_ptr(),
                trace.len(),
            )
        }
    }
}

/// What a number means, in a few words.
fn meaning(number: u32) -> &'static str {
    // the library's text is constant, ends in a byte 0 and is ASCII
    unsafe { CStr::from_ptr(m7_meaning(number)) }.to_str().unwrap_or("")
}

/// Reads a file whole, or one byte more than the engine takes of it.
fn load(name: &str) -> io::Result<Vec<u8>> {
    let mut bytes = Vec::new();
    let most = unsafe { m7_file_bytes() } as u64 + 1;
    std::fs::File::open(name)?.take(most).read_to_end(&mut bytes)?;
    Ok(bytes)
}

/// Feeds each line and prints the line that goes out, or why there is none.
fn run(engine: &mut Engine, input: impl BufRead, mut output: impl Write) -> io::Result<()> {
    for line in input.split(b'\n') {
        let answer = engine.feed(&line?, 10_000);
        if answer.number != 0 {
            let Answer { number, passes, .. } = answer;
            writeln!(output, "refused with {number} after {passes} passes: {}", meaning(number))?;
        } else if answer.kind == OUT {
            output.write_all(&engine.output[..answer.length as usize])?;
            output.write_all(b"\n")?;
        }
    }
    output.flush()
}

fn main() -> ExitCode {
    let words: Vec<String> = std::env::args().collect();
    let file = words.get(1).filter(|_| words.len() == 2).and_then(|name| load(name).ok());
    let Some(file) = file else {
        eprintln!("usage: host TABLE < LINES, with a TABLE that can be read");
        return ExitCode::from(2);
    };
    match Engine::new(&file) {
        Ok(mut engine) => match run(&mut engine, io::stdin().lock(), io::stdout().lock()) {
            Ok(()) => ExitCode::SUCCESS,
            Err(_) => ExitCode::FAILURE,
        },
        Err(Answer { number, place, .. }) => {
            println!("refused with {number} at {place}: {}", meaning(number));
            ExitCode::FAILURE
        }
    }
}
