//! Words: the top three bits are a word's kind, the rest its payload.

pub const NET: u32 = 0;
pub const INVERTED: u32 = 1;
pub const HEAD: u32 = 2;
pub const NUMBER: u32 = 3;
pub const TERM: u32 = 4;

/// The largest payload, which as a net is X.
pub const LAST: u32 = (1 << 29) - 1;

pub fn word(kind: u32, payload: u32) -> u32 {
    assert!(payload <= LAST);
    kind << 29 | payload
}

pub fn kind(word: u32) -> u32 {
    word >> 29
}

pub fn payload(word: u32) -> u32 {
    word & LAST
}

/// A head: an operation and the count of the words that follow.
pub fn head(operation: u32, count: usize) -> u32 {
    word(HEAD, operation + 32 * count as u32)
}

pub fn operation(head: u32) -> u32 {
    payload(head) % 32
}

pub fn count(head: u32) -> usize {
    payload(head) as usize / 32
}

pub fn number(value: u32) -> u32 {
    word(NUMBER, value)
}

/// A line of words: eight hexadecimal digits each, single spaces between.
pub fn to_line(words: &[u32]) -> String {
    let mut line = String::with_capacity(9 * words.len());
    for (at, word) in words.iter().enumerate() {
        if at > 0 {
            line.push(' ');
        }
        for digit in (0..8).rev() {
            line.push(char::from_digit(word >> (4 * digit) & 15, 16).unwrap());
        }
    }
    line
}

/// The words of a line; the first token that is none is handed back.
pub fn from_line(line: &str) -> Result<Vec<u32>, String> {
    line.split_whitespace().map(|token| u32::from_str_radix(token, 16).map_err(|_| token.to_string())).collect()
}
