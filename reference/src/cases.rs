//! Small cases with this engine's answers, in a form for other checkers.
//! `README.md` describes the lines.

use crate::generate::{any_case, any_file, Case, Random};
use crate::line::{Answer, Engine, Kind};
use crate::protocol::{answer_words, hex, refusal_words, spell_words};
use crate::read::read_file;
use crate::write::write_table;

const FILE_END: usize = 80;
const LINE_END: usize = 40;
const PASSES_END: usize = 30;

/// Bytes given as pieces, each with the times it is repeated.
type Pieces<'a> = &'a [(&'a str, usize)];

fn joined(pieces: Pieces) -> Vec<u8> {
    pieces.iter().flat_map(|(piece, times)| piece.as_bytes().repeat(*times)).collect()
}

/// Runs of at least this many bytes are given as `HEX*TIMES`.
const RUN: usize = 24;

/// The longest run at the start of `bytes`: the length of its repeated piece,
/// at most 16, and the times that piece stands there.
fn run(bytes: &[u8]) -> (usize, usize) {
    let times = |length: usize| {
        let piece = &bytes[..length];
        bytes.chunks(length).take_while(|chunk| *chunk == piece).count()
    };
    let lengths = 1..=bytes.len().min(16);
    let runs = lengths.map(|length| (length, times(length)));
    runs.filter(|run| run.1 > 1).max_by_key(|run| (run.0 * run.1, run.1)).unwrap_or((1, 1))
}

/// Bytes of a long case: pieces joined by `+`, each hex or `HEX*TIMES`.
fn compact(bytes: &[u8]) -> String {
    let mut words = Vec::new();
    let mut plain = Vec::new();
    let mut rest = bytes;
    while !rest.is_empty() {
        let (length, times) = run(rest);
        if length * times >= RUN {
            words.extend((!plain.is_empty()).then(|| hex(&plain)));
            plain.clear();
            words.push(format!("{}*{times}", hex(&rest[..length])));
            rest = &rest[length * times..];
        } else {
            plain.push(rest[0]);
            rest = &rest[1..];
        }
    }
    words.extend((!plain.is_empty()).then(|| hex(&plain)));
    if words.is_empty() {
        "-".to_string()
    } else {
        words.join("+")
    }
}

/// Bytes as they stand in a case: plain hex in a small one.
fn words_of(flag: char, bytes: &[u8]) -> String {
    if flag == 's' {
        hex(bytes)
    } else {
        compact(bytes)
    }
}

/// `answer_words`, with the text as the case's bytes stand.
fn answer_of(flag: char, answer: &Answer) -> String {
    match &answer.kind {
        Kind::Out(text) => format!("0 0 {} 1 {}", answer.passes, words_of(flag, text)),
        _ => answer_words(answer),
    }
}

/// What the line wrote to the trace memory, `.` if that is untouched.
fn trace_of(flag: char, trace: &Option<Vec<u8>>) -> String {
    trace.as_ref().map_or(".".to_string(), |text| words_of(flag, text))
}

/// The words of an `R` line after its file.
fn read_words(flag: char, file: &[u8]) -> String {
    match read_file(file) {
        Err(refusal) => refusal_words(refusal),
        Ok(table) => {
            let engine = Engine::new(table);
            let written = match write_table(&engine.table) {
                Ok(file) => format!("written {}", words_of(flag, &file)),
                Err(refusal) => refusal_words(refusal),
            };
            let lengths = spell_words(&engine).replace(' ', ",");
            format!("ok {} {written} {lengths}", engine.table.len())
        }
    }
}

fn read_case(flag: char, file: &[u8], lines: &mut Vec<String>) {
    lines.push(format!("R {flag} {} {}", words_of(flag, file), read_words(flag, file)));
}

/// An `L` line, an `F` line for each line fed, and an `S` line.
fn line_case(flag: char, case: &Case, lines: &mut Vec<String>) {
    let Ok(table) = read_file(&case.file) else {
        return;
    };
    let mut engine = Engine::new(table);
    lines.push(format!("L {flag} {} {}", words_of(flag, &case.file), case.lines.len()));
    for (budget, line) in &case.lines {
        let fed = engine.feed_traced(line, *budget);
        let (answer, trace) = (answer_of(flag, &fed.answer), trace_of(flag, &fed.trace));
        lines.push(format!("F {budget} {} {answer} {trace}", words_of(flag, line)));
    }
    lines.push(format!("S {} {}", engine.table.len(), engine.state));
}

/// Whether a generated case and its answers are small.
fn is_small(case: &Case) -> bool {
    let Ok(table) = read_file(&case.file) else {
        return false;
    };
    let mut engine = Engine::new(table);
    let small = |text: &[u8]| text.len() < LINE_END;
    case.file.len() < FILE_END
        && case.lines.iter().all(|(budget, line)| {
            let made = engine.history(line, *budget);
            let answer = engine.feed(line, *budget);
            let refused = matches!(&answer.kind, Kind::Refused(of) if of.number == 32);
            small(line) && !refused && made.len() <= PASSES_END && {
                made.iter().all(|one| one.line.len() < 2 * LINE_END)
            }
        })
}

/// Files that show a number which small random files rarely or never show.
const FILES: &[(char, Pieces)] = &[
    ('s', &[("", 1)]),
    ('s', &[("'a'='b'\0;\0", 1)]),
    ('s', &[("'a'", 1)]),
    ('s', &[("'[z-a]'='b';", 1)]),
    ('s', &[("'a**'='b';", 1)]),
    ('s', &[("'{a'='b';", 1)]),
    ('s', &[("'a'='{2}';", 1)]),
    ('s', &[("'{}'='b';", 1)]),
    ('l', &[("x", 32_768)]),
    ('l', &[("x", 32_769)]),
    ('l', &[("x", 32_767), ("\0", 2)]),
    ('l', &[("'a'='", 1), ("x", 504), ("';", 1)]),
    ('l', &[("'a'='", 1), ("x", 505), ("';", 1)]),
    ('l', &[("'a'='", 1), ("x", 506), ("';", 1)]),
    ('l', &[("'a'='", 1), (":", 505), ("';", 1)]),
    ('l', &[("'a/", 1), ("x", 600), ("/'='b';", 1)]),
    ('l', &[("'a'='", 1), ("x", 507), (";", 1)]),
    ('l', &[("'", 1), ("a", 510), ("**'='';", 1)]),
    ('l', &[("'a'='&(a:", 1), ("x", 100), (":)';", 1)]),
    ('l', &[("'a'='&(a:", 1), ("x", 101), (":)';", 1)]),
    ('l', &[("'a'='b';", 96)]),
    ('l', &[("'a'='b';", 97)]),
    ('l', &[("'a'='b'; ", 96), ("'", 1)]),
    ('l', &[("'", 1), ("{", 99), ("a", 1), ("}", 99), ("'='{99}';", 1)]),
    ('l', &[("'", 1), ("{", 100), ("a", 1), ("}", 100), ("'='';", 1)]),
    ('l', &[("'a'='#(a=", 1), ("0", 400), ("7)';", 1)]),
    ('l', &[("'a'='#(a=", 1), ("9", 400), (")';", 1)]),
    ('s', &[("\\&(s:x:)&#/;/#(v=07)\n'a'='b';", 1)]),
    ('s', &[("#(v=1) x ;'a'='b';", 1)]),
    ('s', &[("&( 01,a)'{a}'='b';", 1)]),
    ('l', &[("#(v=1)", 1), ("x", 498), ("'a'='b';", 1)]),
    ('l', &[("#(v=1)", 1), ("x", 499), ("'a'='b';", 1)]),
    ('l', &[("&/", 1), ("x", 600), ("/(s=2)'a'='b';", 1)]),
    ('l', &[("'a'='b';", 96), ("#/x/(", 1)]),
];

type Fed<'a> = &'a [(u64, Pieces<'a>)];

/// Lines that show a number which small random lines rarely or never show.
const LINES: &[(char, Pieces, Fed)] = &[
    ('s', &[("'a'='b';", 1)], &[(1_000_001, &[("a", 1)]), (1_000_000, &[("a", 1)])]),
    ('s', &[("'a'='b';", 1)], &[(9, &[("a\0", 1)]), (9, &[("a\n", 1)]), (0, &[("a", 1)])]),
    ('s', &[("'a'<'&(a=20)&(a:x:)&(a+)';", 1)], &[(9, &[("a", 1)])]),
    ('s', &[("'a'<'#(a=999999999)#(a+)';", 1)], &[(9, &[("a", 1)])]),
    ('s', &[("'a'<'#(a=999999998)#(a+)';", 1)], &[(9, &[("a", 1)]), (9, &[("a", 1)])]),
    ('s', &[("'a'='b';", 1)], &[(9, &[("$FOO", 1)]), (9, &[("$MACRO", 1)])]),
    ('s', &[("'a'='a';", 1)], &[(7, &[("a", 1)])]),
    ('l', &[("'{a*}'<'b'&(1,t);", 1)], &[(9, &[("a", 100)]), (9, &[("a", 101)])]),
    ('l', &[("'{a*}'<'&(t=20)&(1,+t)';", 1)], &[(9, &[("a", 101)])]),
    ('l', &[("'a'='aa';", 1)], &[(10, &[("a", 1)]), (11, &[("a", 1)])]),
    (
        's',
        &[("'b'='c';'a'<'b';", 1)],
        &[(9, &[("$TRACE 1", 1)]), (9, &[("aba", 1)]), (9, &[("x", 1)])],
    ),
    ('s', &[("'x'<'$TRACE ';", 1)], &[(9, &[("x1", 1)]), (9, &[("x0", 1)]), (9, &[("x0", 1)])]),
    ('l', &[("'int'='integer';", 1)], &[(9, &[("$TRACE 1", 1)]), (200, &[("print", 1)])]),
    (
        'l',
        &[("'a'='a';", 1)],
        &[(9, &[("$TRACE 1", 1)]), (32, &[("a", 1_010)]), (33, &[("a", 1_010)])],
    ),
    ('l', &[("'a'='a';'x'<'yy';", 1)], &[(9, &[("$TRACE 1", 1)]), (33, &[("x", 1), ("a", 977)])]),
    ('l', &[("'b'<'';", 1)], &[(9, &[("a", 1_054)]), (9, &[("a", 1_055)])]),
    ('l', &[("'$'<'b';", 1)], &[(9, &[("a", 1_053)]), (9, &[("a", 1_054)])]),
    ('l', &[("'b'<'c';", 1)], &[(9, &[("\0", 1), ("a", 1_054)])]),
    ('l', &[("'q'='b';", 95)], &[(999, &[("$MACRO'a'='b';'a'='b';", 1)])]),
    ('l', &[("'q'='b';", 95)], &[(999, &[("$MACRO'a'='b';", 1)]), (999, &[("$MACRO'", 1)])]),
    ('s', &[("#(v=5)'x'='y#(v+)';", 1)], &[(9, &[("xx", 1)]), (9, &[("xx", 1)])]),
    ('s', &[("#(v=2)'q'='r';'p#(v)'='w';", 1)], &[(9, &[("p2", 1)]), (9, &[("p2", 1)])]),
    ('s', &[("&(s=20)&(+s:x:)'a'='b';", 1)], &[(9, &[("z", 1)]), (0, &[("z", 1)])]),
    ('s', &[("&(a:b:)'y'='';'<&(a)>'='x';", 1)], &[(9, &[("y<b>", 1)])]),
];

fn constructed(lines: &mut Vec<String>) {
    for (flag, pieces) in FILES {
        read_case(*flag, &joined(pieces), lines);
    }
    for (flag, file, fed) in LINES {
        let fed = fed.iter().map(|(budget, line)| (*budget, joined(line))).collect();
        let case = Case { file: joined(file), lines: fed };
        line_case(*flag, &case, lines);
    }
}

/// The constructed cases, then `count` generated ones, half of each kind.
pub fn case_lines(seed: u64, count: usize) -> Vec<String> {
    let mut random = Random::new(seed);
    let mut lines = Vec::new();
    constructed(&mut lines);
    let mut made = 0;
    while made < count {
        if made % 2 == 0 {
            let file = any_file(&mut random);
            if file.len() >= FILE_END {
                continue;
            }
            read_case('s', &file, &mut lines);
        } else {
            let case = any_case(&mut random, 3, 4);
            if !is_small(&case) {
                continue;
            }
            line_case('s', &case, &mut lines);
        }
        made += 1;
    }
    lines
}
