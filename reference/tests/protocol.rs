//! The line protocol, the generators and the cases for other checkers.

use m7_reference::cases::case_lines;
use m7_reference::generate::{any_case, Random};
use m7_reference::protocol::{hex, unhex, Server};
use std::collections::BTreeSet;
use std::io::Write;
use std::process::{Command, Stdio};

#[test]
fn hex_goes_both_ways() {
    let all: Vec<u8> = (0..=255).collect();
    assert_eq!(unhex(&hex(&all)), Some(all));
    assert_eq!(hex(b""), "-");
    assert_eq!(unhex("-"), Some(Vec::new()));
    assert_eq!(unhex("6"), None);
    assert_eq!(unhex("6g"), None);
    assert_eq!(unhex(""), None);
}

#[test]
fn server_answers() {
    let mut server = Server::default();
    let mut says = |command: &str, answer: &str| assert_eq!(server.obey(command), answer);
    says("write", "ok -");
    says("spell", "-");
    says(&format!("read {}", hex(b"'a'<'#(n+)'&(s:x:);")), "ok 1");
    says("spell", "19");
    says(&format!("passes 10000 {}", hex(b"aa")), "1:2:3132");
    says(&format!("feed 10000 {}", hex(b"aa")), "0 0 1 1 3132");
    says("state", "es1=78 cn=3");
    says(&format!("feed 0 {}", hex(b"a")), "31 0 0 0 -");
    says(&format!("feed 9 {}", hex(b"$MACRO 'a")), "12 3 0 0 -");
    says(&format!("feed 9 {}", hex(b"$NFLAG 1")), "0 0 0 3 -");
    says(&format!("feed 9 {}", hex(b"b")), "0 0 1 2 -");
    says("state", "N1 es1=78 cn=3");
    says(&format!("read {}", hex(b"'a**'='b';")), "no 14 3");
    says("write", &format!("ok {}", hex(b"'a'<'#(n+)'&(s:x:);\n")));
    says("fresh", "ok");
    says(&format!("feed 9 {}", hex(b"$TRACE 1")), "0 0 0 3 -");
    says("trace", "ok -");
    says(&format!("feed 9 {}", hex(b"a")), "0 0 1 1 31");
    says("trace", &format!("ok {}", hex(b"oldline:a\nmacro #:1\nnewline:1\n")));
    says(&format!("feed 9 {}", hex(b"$")), "23 0 0 0 -");
    says("trace", &format!("ok {}", hex(b"oldline:a\nmacro #:1\nnewline:1\n")));
    says(&format!("feed 9 {}", hex(&[b"a", &[b'b'; 600][..]].concat())), &{
        format!("0 0 1 1 {}", hex(&[b"2", &[b'b'; 600][..]].concat()))
    });
    says("trace", "long 1230 663705");
    says("fresh", "ok");
    says("state", "fresh");
    says(&format!("words {} {}", hex(b"a CAT CART"), hex(b"CA-T")), "ok 2 2");
    says(&format!("words {} {}", hex(b"SCAT"), hex(b"CA-T")), "ok 0 0");
    says("words 41 -", "no 41 0");
    says("words 4 41", "error bad hex");
    says(&format!("measure {}", hex(b"'{a}b'='';'c'=':';")), "ok 2 2 1 21");
    says(&format!("measure {}", hex(b"'a**'='b';")), "no 14 3");
    let colons = [b"'a'='", &[b':'; 505][..], b"';"].concat();
    says(&format!("measure {}", hex(&colons)), "ok 1 1 0 no 18 512");
    says(&format!("recover {}", hex(b"'a'='b';'c';'d'='e';'f")), "ok 2 12 11 12 22");
    says("write", &format!("ok {}", hex(b"'a'='b';\n'd'='e';\n")));
    says(&format!("recover {}", hex(&b"'a;".repeat(257))), "no 61 0");
    says(&format!("read {}", hex(b"'{a*}'<''&(1,s);")), "ok 1");
    says(&format!("feed 9 {}", hex(&[b'a'; 50])), "0 0 1 1 -");
    says("narrow", "ok");
    says(&format!("feed 9 {}", hex(&[b'a'; 51])), "0 0 1 1 -");
    says("narrow", "no 42 0");
    says("widen", "ok");
    says("state", &format!("es1={}", hex(&[b'a'; 50])));
    says("feed x -", "error bad feed");
    says("read xx", "error bad hex");
    says("other", "error unknown command");
}

#[test]
fn a_seed_always_gives_the_same_cases() {
    let list = |seed| {
        let mut random = Random::new(seed);
        (0..50).map(|_| any_case(&mut random, 4, 4)).collect::<Vec<_>>()
    };
    assert_eq!(list(11), list(11));
    assert_ne!(list(11), list(12));
}

/// The refusal numbers that a stream of cases shows.
fn numbers(lines: &[String]) -> BTreeSet<u8> {
    let number = |line: &String| {
        let words: Vec<&str> = line.split(' ').collect();
        match words[0] {
            "R" if words[3] == "no" => words[4].parse().ok(),
            "F" => words[3].parse().ok(),
            _ => None,
        }
    };
    lines.iter().filter_map(number).filter(|number| *number != 0).collect()
}

#[test]
fn cases_show_every_number() {
    let wanted: BTreeSet<u8> =
        [4].into_iter().chain(10..=19).chain(21..=23).chain(31..=36).collect();
    for seed in [1, 2, 3] {
        assert_eq!(numbers(&case_lines(seed, 300)), wanted);
    }
}

/// The output of one of the binaries, with its input.
fn output(binary: &str, words: &[&str], input: &[u8]) -> Vec<u8> {
    let mut program = Command::new(binary)
        .args(words)
        .stdin(Stdio::piped())
        .stdout(Stdio::piped())
        .spawn()
        .unwrap();
    let mut to = program.stdin.take().unwrap();
    let input = input.to_vec();
    let writer = std::thread::spawn(move || to.write_all(&input));
    let done = program.wait_with_output().unwrap();
    writer.join().unwrap().unwrap();
    assert!(done.status.success());
    done.stdout
}

#[test]
fn binaries_work_together() {
    let commands = output(env!("CARGO_BIN_EXE_m7-generate"), &["3", "300"], b"");
    let serve = env!("CARGO_BIN_EXE_m7-serve");
    let compared = output(env!("CARGO_BIN_EXE_m7-compare"), &[serve], &commands);
    let said = String::from_utf8(compared).unwrap();
    assert!(said.ends_with("commands, 0 answers differ\n"), "{said}");
    let answers = concat!(env!("CARGO_MANIFEST_DIR"), "/answers/readings.txt");
    let commands = output(env!("CARGO_BIN_EXE_m7-answers"), &[answers], b"");
    let served = output(serve, &[], &commands);
    let lines = |bytes: &[u8]| bytes.iter().filter(|byte| **byte == b'\n').count();
    assert_eq!(lines(&served), lines(&commands));
    assert!(!String::from_utf8(served).unwrap().contains("error"));
}
