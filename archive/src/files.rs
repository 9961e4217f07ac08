//! Macro files and lines to measure with.

use m7_reference::read::read_file;
use m7_reference::write::write_table;

/// A macro of `size` bytes, with an element of each sort, a skip and calls.
fn macro_of(size: usize, letter: u8) -> Vec<u8> {
    let head = format!("'{}{{[~a-z0-9]*-}}?3*{{?6*\\/}}^/x/&(a)", letter as char);
    let tail = format!("$'='{{1}} {{2}}&(a+)#(n) '&(1,b)#(n,2)&(c:of a text:)&(d=3);");
    let mut made = head.into_bytes();
    while made.len() + tail.len() < size {
        made.push(b'a' + (made.len() % 26) as u8);
    }
    made.extend_from_slice(tail.as_bytes());
    made
}

/// The longest file: 64 macros of 512 bytes, 32,768 in all.
pub fn longest() -> Vec<u8> {
    (0..64u8).flat_map(|i| macro_of(512, b'A' + i % 26)).collect()
}

/// 96 macros of 341 bytes, the most that a table has.
pub fn most_macros() -> Vec<u8> {
    (0..96u8).flat_map(|i| macro_of(341, b'A' + i % 26)).collect()
}

/// 63 macros of at most 512 bytes, each with one unit over and over in one part; written out they still fit.
pub fn of_one_part(before: &str, unit: &str, behind: &str) -> Vec<u8> {
    let times = (512 - before.len() - behind.len()) / unit.len();
    format!("{before}{}{behind}", unit.repeat(times)).repeat(63).into_bytes()
}

/// 256 faults, the most that are listed, in 32,768 bytes.
pub fn most_faults() -> Vec<u8> {
    format!("'a**{};", "x".repeat(123)).repeat(256).into_bytes()
}

/// Forty macros for part texts.
pub fn parts() -> Vec<u8> {
    include_bytes!("../bench/parts.m7").to_vec()
}

/// The same without the one that puts a bar line behind every line.
pub fn open_parts() -> Vec<u8> {
    let macros = read_file(&parts()).expect("the file is taken");
    write_table(&macros[1..]).expect("it can be written")
}

/// The lines of a song, over and over.
pub fn song_lines(count: usize) -> Vec<Vec<u8>> {
    let text = include_bytes!("../bench/song.txt");
    let lines = text.strip_suffix(b"\n").unwrap_or(text).split(|byte| *byte == b'\n');
    lines.map(<[u8]>::to_vec).cycle().take(count).collect()
}

/// The table of the manual's section 10, as the stored answers have it.
pub const MANUAL_10: &[u8] = b"1. '{[~\\;{}]}$' = '{1}\\;'; step 3\n\
2. 'do {?6*} {?2*}={?6*},{?6*}$'= step 2\n\
'for({2}={3}\\;{2}<={4}\\;{2}++)\\{',&(1,a);\n\
3. 'do {?6*} {?2*}=/ step 2\n/{?6*},{?6*},{?6*}$' =\n\
'for({2}={3}\\;{2}<={4}\\;{2}={2}+{5})\\{',&(1,a);\n\
4. '^[ 0-9]*' = ''; step 5\n\
5. '^&(a) *continue' = '\\}'; step 4\n\
6. '^ &(a) *continue' = '\\}'; step 4\n\
7. '  ' = ' '; step 1\n\
8. '\\t' = ' '; step 1\n";

/// Lines of a small program, as section 10 has them.
pub fn program_lines(count: usize) -> Vec<Vec<u8>> {
    let lines: [&[u8]; 5] =
        [b"\tdo 10 i=1,100", b"   x = y", b"10 continue", b"do 20 k=1,9,2", b" 20 continue"];
    (0..count).map(|i| lines[i % lines.len()].to_vec()).collect()
}

/// A macro of at most 512 bytes whose pattern has a unit as often as it can, and how often.
pub fn full_macro(unit: &str, last: &str) -> (Vec<u8>, usize) {
    let fitting = (512 - 6 - last.len()) / unit.len();
    let times = if unit.starts_with('{') { fitting.min(99) } else { fitting };
    (format!("'{}{last}'<'';", unit.repeat(times)).into_bytes(), times)
}

/// The same macro as a table for Perl.
pub fn perl_macro(unit: &str, last: &str, times: usize) -> String {
    let regex = |text: &str| {
        let text = text.replace("*-", "\0").replace('*', "+").replace('\0', "*");
        text.replace("?1", "(?s:.)").replace('{', "(").replace('}', ")").replace('$', "\\z")
    };
    let pattern = regex(unit).repeat(times) + &regex(last);
    format!("our @macros = (['<', sub {{ s/{pattern}//g }}]);\n1;\n")
}

/// 99 tags, each around a closure and the next.
pub fn nested_closures() -> Vec<u8> {
    format!("'{}b{}'<'';", "{a*-".repeat(99), "}".repeat(99)).into_bytes()
}
