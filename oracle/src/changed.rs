//! Call words of the Rust as they are changed: records are copied, added or left out, and terms numbered anew.

use crate::record::{ASSERT, CHECK};
use crate::words::{self, TERM};

/// The records of call words.
pub fn records(mut calls: &[u32]) -> Vec<&[u32]> {
    let mut found = vec![];
    while let Some(head) = calls.first() {
        let (record, rest) = calls.split_at(1 + words::count(*head));
        found.push(record);
        calls = rest;
    }
    found
}

/// Whether a record of this operation makes a term.
pub fn makes_term(operation: u32) -> bool {
    operation != ASSERT && operation != CHECK
}

/// A term as an argument.
pub fn reference(term: u32) -> u32 {
    words::word(TERM, term)
}

/// The number of a term of the Rust's that was left out.
const LEFT_OUT: u32 = u32::MAX;

/// Call words as they are put together, with the number that each of the Rust's terms has among them.
#[derive(Default)]
pub struct Changed {
    pub words: Vec<u32>,
    pub terms: u32,
    pub numbers: Vec<u32>,
}

impl Changed {
    /// A record with these arguments.
    fn record(&mut self, operation: u32, arguments: &[u32]) {
        self.words.push(words::head(operation, arguments.len()));
        self.words.extend(arguments);
    }

    /// A record that makes a term, with these arguments; its word as an argument.
    pub fn term(&mut self, operation: u32, arguments: &[u32]) -> u32 {
        self.record(operation, arguments);
        self.terms += 1;
        reference(self.terms - 1)
    }

    /// Whether an argument of the Rust's is a term that was left out.
    pub fn is_left_out(&self, word: u32) -> bool {
        words::kind(word) == TERM && self.numbers[words::payload(word) as usize] == LEFT_OUT
    }

    /// The word among these calls of an argument of the Rust's.
    pub fn argument(&self, word: u32) -> u32 {
        assert!(!self.is_left_out(word), "a term that was left out is used");
        if words::kind(word) == TERM { reference(self.numbers[words::payload(word) as usize]) } else { word }
    }

    /// A record of the Rust's, under this operation and with these of its arguments.
    pub fn copy(&mut self, operation: u32, arguments: &[u32]) {
        let arguments = arguments.iter().map(|word| self.argument(*word)).collect::<Vec<_>>();
        if makes_term(operation) {
            self.term(operation, &arguments);
            self.numbers.push(self.terms - 1);
        } else {
            self.record(operation, &arguments);
        }
    }

    /// A record of the Rust's that makes a term is left out.
    pub fn leave_out(&mut self) {
        self.numbers.push(LEFT_OUT);
    }
}
