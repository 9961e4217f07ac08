//! 01, part 1: the six kinds of each of the 256 bytes, with the letters of
//! ISO 8859-1 (02, N3).

/// Bit n - 1 of an entry says whether the byte is of kind `?n`.
pub const KINDS: [u8; 256] = kinds();

const fn kinds() -> [u8; 256] {
    let mut table = [0; 256];
    let mut byte = 0;
    while byte < 256 {
        table[byte] = kinds_of(byte as u8);
        byte += 1;
    }
    table
}

const fn kinds_of(byte: u8) -> u8 {
    let upper = matches!(byte, b'A'..=b'Z' | 192..=214 | 216..=222);
    let lower = matches!(byte, b'a'..=b'z' | 223..=246 | 248..=255);
    let digit = byte >= b'0' && byte <= b'9';
    let letter = upper || lower;
    1 | ((letter || digit) as u8) << 1
        | (letter as u8) << 2
        | (upper as u8) << 3
        | (lower as u8) << 4
        | (digit as u8) << 5
}

/// Whether `byte` is of kind `?n`, n from 1 to 6.
pub fn is_kind(n: u8, byte: u8) -> bool {
    KINDS[byte as usize] >> (n - 1) & 1 == 1
}
