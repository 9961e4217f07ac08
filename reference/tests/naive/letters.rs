//! The kinds from the letters themselves. Each is the byte of its number.

pub const UPPER: &str = "ABCDEFGHIJKLMNOPQRSTUVWXYZÀÁÂÃÄÅÆÇÈÉÊËÌÍÎÏÐÑÒÓÔÕÖØÙÚÛÜÝÞ";
pub const LOWER: &str = "abcdefghijklmnopqrstuvwxyzßàáâãäåæçèéêëìíîïðñòóôõöøùúûüýþÿ";
const DIGITS: &str = "0123456789";

/// Whether `byte` is of kind `?n`.
pub fn is_kind(n: u8, byte: u8) -> bool {
    let among = |letters: &str| letters.chars().any(|letter| letter == char::from(byte));
    match n {
        1 => true,
        2 => among(UPPER) || among(LOWER) || among(DIGITS),
        3 => among(UPPER) || among(LOWER),
        4 => among(UPPER),
        5 => among(LOWER),
        _ => among(DIGITS),
    }
}
