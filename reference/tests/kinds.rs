//! 01, part 1, and 02, N3, over all 256 bytes.

#[allow(dead_code)]
mod naive;

use m7_reference::kinds::{is_kind, KINDS};
use naive::letters::{LOWER, UPPER};

#[test]
fn kinds_of_every_byte() {
    for byte in 0..=255u8 {
        for n in 1..=6 {
            assert_eq!(is_kind(n, byte), naive::letters::is_kind(n, byte), "?{n} on {byte}");
        }
        assert!(KINDS[byte as usize] < 64);
    }
}

/// ISO 8859-1 has 30 capital and 32 small letters beyond ASCII.
#[test]
fn letters_are_those_of_the_standard() {
    let beyond = |text: &str| text.chars().filter(|letter| !letter.is_ascii()).count();
    assert_eq!((beyond(UPPER), beyond(LOWER)), (30, 32));
    let bytes = |n: u8| (128..=255u8).filter(|byte| is_kind(n, *byte)).count();
    assert_eq!([bytes(2), bytes(3), bytes(4), bytes(5), bytes(6)], [62, 62, 30, 32, 0]);
}
