//! Properties of reading files, good and damaged.

use m7_reference::bounds::{FILE_BYTES, MACRO_BYTES};
use m7_reference::generate::{any_file, any_macro, bound_case, Random};
use m7_reference::macros::Table;
use m7_reference::read::read_file;
use m7_reference::refusal::{Refusal, INCOMPLETE, MACRO_TOO_LONG, TOO_MANY_MACROS};
use m7_reference::spell::shortest_spelling;
use m7_reference::write::write_table;

const FILES: usize = 150_000;

/// The last byte that a fault depends on: that at its place, and for 18 and 19
/// of a macro that begins with a call at least this call's `(` (02, reading 10).
fn last_byte(file: &[u8], refusal: Refusal) -> usize {
    let start = match refusal.number {
        MACRO_TOO_LONG => refusal.place - MACRO_BYTES,
        TOO_MANY_MACROS => refusal.place,
        _ => return refusal.place,
    };
    if file[start] == b'\'' {
        return refusal.place;
    }
    let mut at = start + 1;
    while file[at] == b'/' {
        let inside = file[at + 1..].iter().position(|byte| *byte == b'/');
        at += inside.expect("a skip inside the sign ends") + 2;
    }
    assert_eq!(file[at], b'(');
    refusal.place.max(at)
}

/// A fault depends on no byte after the last that shows it.
fn later_bytes_do_not_matter(file: &[u8], refusal: Refusal, random: &mut Random) {
    let last = last_byte(file, refusal);
    if last < file.len() {
        let kept = &file[..=last];
        let other = [kept, &any_file(random)].concat();
        if !other.contains(&0) && other.len() <= FILE_BYTES {
            assert_eq!(read_file(kept), Err(refusal));
            assert_eq!(read_file(&other), Err(refusal));
        }
    }
}

/// Cut before the byte that shows it, the file has no fault but its end.
fn no_fault_showed_before(file: &[u8], refusal: Refusal) {
    let last = last_byte(file, refusal);
    let cut = read_file(&file[..last]);
    let end = Refusal::at(INCOMPLETE, last);
    assert!(cut.is_ok() || cut == Err(end), "{:?}", String::from_utf8_lossy(file));
}

fn written_and_read_back(table: &Table) {
    match write_table(table) {
        Ok(file) => assert_eq!(read_file(&file).as_ref(), Ok(table)),
        Err(refusal) => assert!(refusal.number == 10 || refusal.number == 18),
    }
}

#[test]
fn faults_show_at_their_first_byte() {
    let mut random = Random::new(5);
    let (mut seen, mut later) = ([0; 20], 0);
    for number in 0..FILES {
        let file = match number % 50 {
            0 => bound_case(&mut random).file,
            _ => any_file(&mut random),
        };
        match read_file(&file) {
            Ok(table) => {
                seen[0] += 1;
                written_and_read_back(&table);
            }
            Err(refusal) => {
                seen[refusal.number as usize] += 1;
                assert!(refusal.place <= file.len());
                if refusal.number > 11 {
                    later += usize::from(last_byte(&file, refusal) > refusal.place);
                    later_bytes_do_not_matter(&file, refusal, &mut random);
                    no_fault_showed_before(&file, refusal);
                }
            }
        }
    }
    println!("files by refusal number, 0 for none: {seen:?}; {later} shown later than the place");
    assert!(later > 20);
    assert!([0, 10, 11, 12, 13, 14, 15, 16, 17, 18, 19].iter().all(|number| seen[*number] > 40));
}

/// Text before a pattern moves every place and changes nothing else.
#[test]
fn text_before_a_pattern_moves_places() {
    let mut random = Random::new(6);
    for _ in 0..FILES / 10 {
        let file = any_file(&mut random);
        let before = b"; =<& (\\\n";
        let moved = [before, &file[..]].concat();
        let wanted = read_file(&file).map_err(|refusal| {
            let place = refusal.place + before.len();
            Refusal { place, ..refusal }
        });
        assert_eq!(read_file(&moved), wanted);
    }
}

/// For each byte of a macro's shortest spelling, whether a skip may stand
/// before it: not in a class, and not after a `\` that escapes the byte.
fn skip_places(spelling: &[u8]) -> Vec<bool> {
    let (mut quotes, mut class, mut escaped) = (0, false, false);
    let mut places = Vec::new();
    for byte in spelling {
        places.push(!class && !escaped);
        let raw = !escaped;
        escaped = raw && *byte == b'\\';
        match byte {
            b'\'' if raw && !class => quotes += 1,
            b'[' if raw && !class => class = quotes == 1,
            b']' if raw => class = false,
            _ => {}
        }
    }
    places
}

/// "The rest is read as if both and all between were not there."
#[test]
fn a_skip_changes_nothing() {
    let mut random = Random::new(10);
    for number in 0..FILES / 30 {
        let made = any_macro(&mut random, number % 3 > 0);
        let spelling = shortest_spelling(&made);
        for (place, allowed) in skip_places(&spelling).into_iter().enumerate() {
            let skip = *random.pick(&["//", "/x/", "/';\n[:}/"]);
            let file = [&spelling[..place], skip.as_bytes(), &spelling[place..]].concat();
            if allowed {
                let text = String::from_utf8_lossy(&file);
                assert_eq!(read_file(&file), Ok(vec![made.clone()]), "{text}");
            }
        }
    }
}
