//! `m7-page PAGE..` runs every example of a page: each block of code that is
//! marked `m7` holds a macro file, and then lines with what comes out of each.
//! The form is told at the page's head. The exit code is 1 if an answer differs.

use m7_archive::engine::{feed, fresh, read};
use m7_archive::engine::{OUTPUT_BYTES, STATE_BYTES, TABLE_BYTES, TRACE_BYTES};
use std::process::ExitCode;

const BUDGET: u32 = 10_000;

/// A block of code marked `m7`: the number of its first line, and its lines.
struct Block {
    line: usize,
    lines: Vec<String>,
}

fn blocks(page: &str) -> Vec<Block> {
    let mut found = Vec::new();
    let mut open: Option<Block> = None;
    for (at, line) in page.lines().enumerate() {
        match open.take() {
            None if line == "```m7" => open = Some(Block { line: at + 2, lines: Vec::new() }),
            None => {}
            Some(block) if line == "```" => found.push(block),
            Some(mut block) => {
                block.lines.push(line.to_string());
                open = Some(block);
            }
        }
    }
    assert!(open.is_none(), "a block is not ended");
    found
}

/// The bytes that a line of the page stands for: `<CR>`, `<TAB>` and `<E9>` are one byte each.
fn bytes(line: &str) -> Vec<u8> {
    let line = line.as_bytes();
    let named: [(&[u8], u8); 4] = [(b"<CR>", 13), (b"<TAB>", 9), (b"<LF>", 10), (b"<E9>", 0xE9)];
    let mut made = Vec::new();
    let mut at = 0;
    while at < line.len() {
        let name = named.iter().find(|(name, _)| line[at..].starts_with(name));
        made.push(name.map_or(line[at], |(_, byte)| *byte));
        at += name.map_or(1, |(name, _)| name.len());
    }
    made
}

/// The line on the page that an output is: the bytes of `bytes`, named again.
fn shown(output: &[u8]) -> String {
    let name = |byte: &u8| match byte {
        13 => b"<CR>".to_vec(),
        9 => b"<TAB>".to_vec(),
        10 => b"<LF>".to_vec(),
        0xE9 => b"<E9>".to_vec(),
        byte => vec![*byte],
    };
    String::from_utf8_lossy(&output.iter().flat_map(name).collect::<Vec<u8>>()).into_owned()
}

/// The lines of a trace up to its zeros.
fn trace_lines(trace: &[u8]) -> Vec<String> {
    let text = trace.split(|byte| *byte == 0).next().unwrap_or_default();
    text.strip_suffix(b"\n")
        .map_or(Vec::new(), |lines| lines.split(|byte| *byte == b'\n').map(shown).collect())
}

/// What a fed line shows on the page: its trace, then the line that goes out,
/// `! N` or nothing.
fn said(table: &mut [u8], state: &mut [u8], line: &[u8]) -> Vec<String> {
    let (mut output, mut trace) = ([0; OUTPUT_BYTES], vec![0; TRACE_BYTES]);
    let answer = feed(table, state, line, BUDGET, &mut output, &mut trace);
    let mut lines = trace_lines(&trace);
    match (answer.number, answer.kind) {
        (0, 1) => lines.push(shown(&output[..answer.length as usize])),
        (0, _) => {}
        (number, _) => lines.push(format!("! {number}")),
    }
    lines
}

/// The block as the engine answers it, and how many answers it has.
fn answered(block: &Block) -> (Vec<String>, usize) {
    let told = |line: &String| line.starts_with(">>") || line.starts_with("! ");
    let end = block.lines.iter().position(told).unwrap_or(block.lines.len());
    let mut made: Vec<String> = block.lines[..end].to_vec();
    let file: Vec<u8> = made.iter().flat_map(|line| [bytes(line), vec![b'\n']].concat()).collect();
    let mut table = vec![0; TABLE_BYTES];
    let mut state = vec![0; STATE_BYTES];
    fresh(&mut state);
    let answer = read(&file, &mut table);
    if answer.number != 0 {
        made.push(format!("! {} at {}", answer.number, answer.place));
        return (made, 1);
    }
    let mut asked = 0;
    for line in block.lines[end..].iter().filter(|line| line.starts_with(">>")) {
        made.push(line.clone());
        let sent = bytes(line[2..].strip_prefix(' ').unwrap_or(""));
        made.extend(said(&mut table, &mut state, &sent));
        asked += 1;
    }
    (made, asked)
}

/// Runs a page: its examples, their answers, and the blocks that differ.
fn run(name: &str) -> (usize, usize, usize) {
    let page = std::fs::read_to_string(name).unwrap_or_else(|error| panic!("{name}: {error}"));
    let (mut examples, mut answers, mut differ) = (0, 0, 0);
    for block in blocks(&page) {
        let (made, asked) = answered(&block);
        examples += 1;
        answers += asked;
        if made != block.lines || asked == 0 {
            differ += 1;
            println!("{name}:{}: the engine answers\n{}\n", block.line, made.join("\n"));
        }
    }
    (examples, answers, differ)
}

fn main() -> ExitCode {
    let mut bad = false;
    for name in std::env::args().skip(1) {
        let (examples, answers, differ) = run(&name);
        println!("{name}: {examples} examples, {answers} answers, {differ} differ");
        bad |= differ != 0 || examples == 0;
    }
    ExitCode::from(bad as u8)
}
