//! What document 02 adds to the Rust: divisions, and the inductive mode.

use crate::list::List;
use crate::record::Answer;
use crate::rust::{self, Run, Way};
use crate::{division, twins};

/// Which of these a command is about.
#[derive(Debug, Clone, Copy, Default, PartialEq, Eq)]
pub struct Scope {
    /// Lists may hold divisions, and these have calls.
    pub divisions: bool,
    /// The calls are those of the inductive mode; many lists are made with joined flip-flops.
    pub inductive: bool,
}

impl Scope {
    /// What the words before the other arguments name, and these.
    pub fn parse<'a, 'b>(arguments: &'b [&'a str]) -> (Scope, &'b [&'a str]) {
        let (divisions, rest) = match arguments {
            ["divisions", rest @ ..] => (true, rest),
            rest => (false, rest),
        };
        match rest {
            ["inductive", rest @ ..] => (Scope { divisions, inductive: true }, rest),
            rest => (Scope { divisions, inductive: false }, rest),
        }
    }

    /// The list that the Rust is given: where divisions are in, with a Mul in place of each.
    pub fn for_the_rust(self, list: &List) -> List {
        if self.divisions { division::multiplied(list) } else { list.clone() }
    }

    /// The calls and marks of a list: the Rust's, changed.
    pub fn run(self, list: &List) -> Run {
        let mut run = rust::run(&self.for_the_rust(list), Way::AsListed, Answer::Unsat, true);
        if run.panic.is_none() && self.inductive {
            twins::cut(list, &mut run.record);
        }
        self.divided(list, run)
    }

    /// A run on such a list, with the calls of divisions where these are in.
    pub fn divided(self, list: &List, mut run: Run) -> Run {
        if run.panic.is_none() && self.divisions {
            run.record.words = division::changed(list, &run.record.words);
            run.record.count = run.record.words.len() as u64;
        }
        run
    }
}
