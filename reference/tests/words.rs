//! Words and word-patterns against every choice of runs, listed (02, N5).

#[allow(dead_code)]
mod naive;

use m7_reference::generate::{any_look, Random};
use m7_reference::macros::{Closure, Element, Item, Unit};
use m7_reference::matching::Matcher;
use m7_reference::refusal::Refusal;
use m7_reference::state::State;
use m7_reference::words::{covered_words, Covered};
use naive::letters::is_kind;
use std::time::{Duration, Instant};

const LOOKS: usize = 200_000;

/// Every way to give each of `dashes` a run, with `length` bytes in all.
fn choices(dashes: usize, length: usize) -> Vec<Vec<usize>> {
    match dashes {
        0 if length == 0 => vec![Vec::new()],
        0 => Vec::new(),
        _ => (0..=length)
            .flat_map(|first| {
                let more = choices(dashes - 1, length - first);
                more.into_iter().map(move |rest| [vec![first], rest].concat())
            })
            .collect(),
    }
}

/// Whether the word is the pattern with runs of these lengths for its dashes.
fn is_covered_by(pattern: &[u8], word: &[u8], runs: &[usize]) -> bool {
    let (mut place, mut dash) = (0, 0);
    for byte in pattern {
        if *byte == b'-' {
            let run = &word[place..place + runs[dash]];
            if !run.iter().all(|byte| is_kind(2, *byte)) {
                return false;
            }
            place += runs[dash];
            dash += 1;
        } else {
            if word[place] != *byte {
                return false;
            }
            place += 1;
        }
    }
    true
}

fn some_choice_covers(pattern: &[u8], word: &[u8]) -> bool {
    let dashes = pattern.iter().filter(|byte| **byte == b'-').count();
    let letters = pattern.len() - dashes;
    word.len() >= letters
        && choices(dashes, word.len() - letters)
            .iter()
            .any(|runs| is_covered_by(pattern, word, runs))
}

/// All longest runs of letters and digits: neither end can be moved outward.
fn all_words(line: &[u8]) -> Vec<(usize, usize)> {
    let inside = |place: usize| is_kind(2, line[place]);
    let mut words = Vec::new();
    for start in 0..line.len() {
        let begins = inside(start) && (start == 0 || !inside(start - 1));
        let mut ends = (start + 1..=line.len()).filter(|end| *end == line.len() || !inside(*end));
        if begins {
            words.extend(ends.next().map(|end| (start, end)));
        }
    }
    words
}

fn refused(line: &[u8], pattern: &[u8]) -> Option<u8> {
    let bad = |byte: &u8| *byte != b'-' && !is_kind(2, *byte);
    let twice = |place: usize| pattern[place] == b'-' && pattern[place - 1] == b'-';
    match () {
        _ if line.len() > 1_054 => Some(21),
        _ if line.iter().any(|byte| *byte == 0 || *byte == b'\n') => Some(22),
        _ if pattern.is_empty() || pattern.iter().any(bad) => Some(41),
        _ if (1..pattern.len()).any(twice) => Some(41),
        _ => None,
    }
}

fn naive_words(line: &[u8], pattern: &[u8]) -> Result<Covered, Refusal> {
    if let Some(number) = refused(line, pattern) {
        return Err(Refusal::plain(number));
    }
    let mut places = Vec::new();
    for (start, end) in all_words(line) {
        let word = &line[start..end];
        // A long word has too many choices to list: the matcher is asked.
        let covered = match word.len() {
            0..=30 => some_choice_covers(pattern, word),
            _ => matcher_covers(pattern, word),
        };
        if covered {
            places.push(start);
        }
    }
    Ok(Covered { words: places.len(), first: places.first().copied() })
}

/// The word-pattern as a pattern of 01: `^`, a dash as `?2*-`, `$`.
fn matcher_covers(pattern: &[u8], word: &[u8]) -> bool {
    let unit = |byte: &u8| match byte {
        b'-' => Element::Unit(Unit::Kind(2), Closure::ZeroOrMore),
        letter => Element::Unit(Unit::Literal(*letter), Closure::None),
    };
    let mut items = vec![Item::Element(Element::LineStart)];
    items.extend(pattern.iter().map(|byte| Item::Element(unit(byte))));
    items.push(Item::Element(Element::LineEnd));
    Matcher::new(&items, word, &State::fresh()).choose(0).is_some()
}

#[test]
fn a_word_counts_exactly_if_some_choice_covers_it() {
    let mut random = Random::new(12);
    let (mut covered, mut none, mut seen) = (0, 0, [0; 42]);
    for _ in 0..LOOKS {
        let (line, pattern) = any_look(&mut random);
        let got = covered_words(&line, &pattern);
        let texts = [&line, &pattern].map(|text| String::from_utf8_lossy(text).to_string());
        assert_eq!(got, naive_words(&line, &pattern), "{texts:?}");
        match got {
            Ok(answer) if answer.words > 0 => covered += answer.words,
            Ok(_) => none += 1,
            Err(refusal) => seen[refusal.number as usize] += 1,
        }
    }
    println!("{LOOKS} looks: {covered} words covered, {none} without, refused {seen:?}");
    assert!(covered > LOOKS / 4 && none > LOOKS / 4);
    assert!([21, 22, 41].iter().all(|number| seen[*number] > 500));
}

/// All texts of 1 to `length` bytes of an alphabet.
fn all_texts(alphabet: &[u8], length: usize) -> Vec<Vec<u8>> {
    let mut texts: Vec<Vec<u8>> = vec![Vec::new()];
    let mut longest = texts.clone();
    for _ in 0..length {
        let longer = |text: &Vec<u8>| {
            alphabet.iter().map(|byte| [&text[..], &[*byte]].concat()).collect::<Vec<_>>()
        };
        longest = longest.iter().flat_map(longer).collect();
        texts.extend(longest.clone());
    }
    texts.remove(0);
    texts
}

#[test]
fn every_small_pattern_on_every_small_word() {
    let words = all_texts(b"AB", 7);
    let patterns = all_texts(b"AB-", 5);
    let mut tried = 0;
    for pattern in patterns.iter().filter(|pattern| refused(b"", pattern).is_none()) {
        for word in &words {
            let wanted = some_choice_covers(pattern, word);
            let got = covered_words(word, pattern).unwrap();
            assert_eq!(got.words == 1, wanted);
            assert_eq!(matcher_covers(pattern, word), wanted);
            tried += 1;
        }
    }
    println!("{tried} patterns and words");
}

#[test]
fn no_pattern_takes_long() {
    let line = [b'A'; 1_054];
    let start = Instant::now();
    for pattern in ["-A".repeat(1_000), "-AB".repeat(300), "A-".repeat(50_000), "A".repeat(100_000)]
    {
        let got = covered_words(&line, pattern.as_bytes()).unwrap();
        assert_eq!(
            got.words,
            (pattern.matches('A').count() <= 1_054 && !pattern.contains('B')) as usize
        );
    }
    println!("{:?}", start.elapsed());
    assert!(start.elapsed() < Duration::from_secs(1));
}
