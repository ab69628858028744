//! Lists in document 01's notation: `#2 #0 #0 #1, Input #1, Not #1 s0, s1 s0`.
//!
//! Numbers are #n, nets 0, 1, X and slots si, inverted ones have a ! before them, a head is its operation's name, or
//! `op` and its number. A comma ends a record, and so gives a head its count; a count of its own stands after a colon.
//! A term is ki, a word of a kind without a meaning is its kind and payload. A word with * and a number is repeated.

use crate::list::NAMES;
use crate::words::{self, HEAD, INVERTED, LAST, NET, NUMBER, TERM};

fn net_text(payload: u32) -> String {
    match payload {
        0 => "0".to_string(),
        1 => "1".to_string(),
        LAST => "X".to_string(),
        slot => format!("s{}", slot - 2),
    }
}

fn operation_text(operation: u32) -> String {
    NAMES.get(operation as usize).map_or_else(|| format!("op{operation}"), |name| name.to_string())
}

fn word_text(word: u32) -> String {
    let payload = words::payload(word);
    match words::kind(word) {
        NET => net_text(payload),
        INVERTED => format!("!{}", net_text(payload)),
        HEAD => format!("{}:{}", operation_text(words::operation(word)), words::count(word)),
        NUMBER => format!("#{payload}"),
        TERM => format!("k{payload}"),
        other => format!("kind{other}:{payload}"),
    }
}

/// A list's text. Heads whose count stays within the list show no count.
pub fn show(list: &[u32]) -> String {
    let mut records = vec![];
    let header = list.len().min(4);
    records.push(list[..header].iter().map(|word| word_text(*word)).collect::<Vec<_>>().join(" "));
    let mut place = header;
    while place < list.len() {
        let head = place + (words::kind(list[place]) == NUMBER) as usize;
        let record = match list.get(head) {
            Some(word) if words::kind(*word) == HEAD => {
                let end = head + 1 + words::count(*word);
                let counted =
                    if end <= list.len() { operation_text(words::operation(*word)) } else { word_text(*word) };
                let end = end.min(list.len());
                let before = list[place..head].iter().map(|word| word_text(*word));
                let body = list[head + 1..end].iter().map(|word| word_text(*word));
                place = end;
                before.chain([counted]).chain(body).collect::<Vec<_>>()
            }
            _ => {
                let end = (place + 2).min(list.len());
                let pair = list[place..end].iter().map(|word| word_text(*word)).collect();
                place = end;
                pair
            }
        };
        records.push(record.join(" "));
    }
    records.join(", ")
}

fn parse_net(text: &str) -> Option<u32> {
    match text {
        "0" => Some(0),
        "1" => Some(1),
        "X" => Some(LAST),
        _ => Some(2 + text.strip_prefix('s')?.parse::<u32>().ok()?),
    }
}

fn parse_operation(text: &str) -> Option<u32> {
    match NAMES.iter().position(|name| *name == text) {
        Some(at) => Some(at as u32),
        None => text.strip_prefix("op")?.parse().ok(),
    }
}

/// One word; `rest` is how many tokens of its record follow.
fn parse_word(text: &str, rest: usize) -> Option<u32> {
    if let Some(digits) = text.strip_prefix('#') {
        return Some(words::number(digits.parse().ok()?));
    }
    if let Some(inverted) = text.strip_prefix('!') {
        return Some(words::word(INVERTED, parse_net(inverted)?));
    }
    if let Some(payload) = parse_net(text) {
        return Some(words::word(NET, payload));
    }
    if let Some(other) = text.strip_prefix("kind") {
        let (kind, payload) = other.split_once(':')?;
        return Some(words::word(kind.parse().ok()?, payload.parse().ok()?));
    }
    if let Some(digits) = text.strip_prefix('k') {
        return Some(words::word(TERM, digits.parse().ok()?));
    }
    let (name, count) = match text.split_once(':') {
        Some((name, count)) => (name, count.parse().ok()?),
        None => (text, rest),
    };
    Some(words::head(parse_operation(name)?, count))
}

/// A token as often as it is to be taken.
fn repeated(token: &str) -> impl Iterator<Item = &str> {
    let (word, times) = token.split_once('*').unwrap_or((token, "1"));
    std::iter::repeat_n(word, times.parse().unwrap_or(0))
}

/// The words of a text; the first token that is none is handed back.
pub fn parse(text: &str) -> Result<Vec<u32>, String> {
    let mut list = vec![];
    for record in text.split(',') {
        let tokens = record.split_whitespace().flat_map(repeated).collect::<Vec<_>>();
        for (at, token) in tokens.iter().enumerate() {
            list.push(parse_word(token, tokens.len() - 1 - at).ok_or(token.to_string())?);
        }
    }
    Ok(list)
}
