//! A recording engine: the calls of the Rust as document 01's call records, and the marks.

use std::{cell::RefCell, collections::HashMap, rc::Rc};

use netlist::{Const, SmtEngine, SmtResponse, Trit};

use crate::words::{self, TERM};

/// How the message begins when a call has no record, or arguments whose sorts SMT-LIB does not join.
pub const REFUSED_CALL: &str = "engine: ";

// Operations of call records, by their numbers.
const BOOL_LITERAL: u32 = 0;
const BOOL_ITE: u32 = 1;
pub const NOT: u32 = 2;
pub const AND: u32 = 3;
pub const LITERAL: u32 = 4;
pub const EQUAL: u32 = 5;
pub const ITE: u32 = 6;
const CONCAT: u32 = 7;
const EXTRACT: u32 = 8;
pub const BVNOT: u32 = 9;
pub const BVAND: u32 = 10;
const BVOR: u32 = 11;
const BVXOR: u32 = 12;
const BVADD: u32 = 13;
const BVCOMP: u32 = 14;
const BVULT: u32 = 15;
const BVSLT: u32 = 16;
const BVSHL: u32 = 17;
const BVLSHR: u32 = 18;
const BVASHR: u32 = 19;
pub const BVMUL: u32 = 20;
pub const DECLARE: u32 = 21;
pub const ASSERT: u32 = 22;
pub const CHECK: u32 = 23;
/// The first of the divisions, which the Rust never calls.
pub const BVUDIV: u32 = 24;

#[rustfmt::skip]
pub const CALLS: [&str; 28] = [
    "bool literal", "bool ite", "not", "and", "literal", "equal", "ite", "concat", "extract", "bvnot", "bvand", "bvor",
    "bvxor", "bvadd", "bvcomp", "bvult", "bvslt", "bvshl", "bvlshr", "bvashr", "bvmul", "declare", "assert", "check",
    "bvudiv", "bvurem", "bvsdiv", "bvsrem",
];

/// A term of sort Bool, by its number.
#[derive(Debug, Clone, Copy, PartialEq, Eq)]
pub struct Bool(u32);

/// A bit vector, by its term number, with its width.
#[derive(Debug, Clone, Copy, PartialEq, Eq)]
pub struct BitVec {
    term: u32,
    width: usize,
}

/// A declared name: letter, index and suffix, as numbers.
#[derive(Debug, Clone, Copy, PartialEq, Eq, Hash)]
pub struct Name {
    pub letter: u32,
    pub index: u32,
    pub suffix: u32,
}

impl Name {
    /// Takes a name of the Rust apart: a letter, digits, and x, y or nothing.
    fn parse(name: &str) -> Name {
        let letter = "npt".find(&name[..1]).expect("engine: a name of another letter") as u32;
        let digits = name[1..].trim_end_matches(['x', 'y']);
        let suffix = match &name[1 + digits.len()..] {
            "" => 0,
            "x" => 1,
            "y" => 2,
            _ => panic!("{REFUSED_CALL}a name of another suffix"),
        };
        Name { letter, index: digits.parse().expect("engine: a name without index"), suffix }
    }
}

/// The declare of an n or a p name, known or not, after so many terms.
#[derive(Debug, Clone, Copy)]
pub struct Read {
    pub name: Name,
    pub terms: u32,
}

/// What the engine has heard.
#[derive(Debug, Default)]
pub struct Record {
    /// The call words, if they are kept.
    pub words: Vec<u32>,
    /// How many call words there were, and how many calls of each operation.
    pub count: u64,
    pub calls: [u64; CALLS.len()],
    /// A digest of the call words.
    pub digest: Digest,
    /// Per slot 0, 1 (n) or 2 (p), by the last declare of its n or p name.
    pub marks: Vec<u32>,
    /// All declares of n and p names in their order, if the words are kept.
    pub reads: Vec<Read>,
    /// The names whose values were asked for after sat.
    pub asked: Vec<Name>,
    terms: u32,
    names: HashMap<Name, BitVec>,
    by_term: HashMap<u32, Name>,
    keep: bool,
}

/// FNV-1a with 64 bits, over the bytes of the words, lowest first.
#[derive(Debug, Clone, Copy, PartialEq, Eq)]
pub struct Digest(pub u64);

impl Default for Digest {
    fn default() -> Self {
        Digest(0xcbf2_9ce4_8422_2325)
    }
}

impl Digest {
    pub fn add(&mut self, word: u32) {
        for byte in word.to_le_bytes() {
            self.0 = (self.0 ^ byte as u64).wrapping_mul(0x100_0000_01b3);
        }
    }
}

impl Record {
    fn record(&mut self, operation: u32, arguments: &[u32]) {
        self.calls[operation as usize] += 1;
        self.word(words::head(operation, arguments.len()));
        for argument in arguments {
            self.word(*argument);
        }
    }

    fn word(&mut self, word: u32) {
        self.count += 1;
        self.digest.add(word);
        if self.keep {
            self.words.push(word);
        }
    }

    /// A record that makes a term; its number is answered.
    fn term(&mut self, operation: u32, arguments: &[u32]) -> u32 {
        self.record(operation, arguments);
        self.terms += 1;
        self.terms - 1
    }

    /// How many slots have a mark.
    pub fn marked(&self) -> usize {
        self.marks.iter().filter(|mark| **mark > 0).count()
    }

    fn declare(&mut self, name: Name, width: usize) -> BitVec {
        if name.letter < 2
            && let Some(mark) = self.marks.get_mut(name.index as usize)
        {
            *mark = 1 + name.letter;
            if self.keep {
                self.reads.push(Read { name, terms: self.terms });
            }
        }
        if let Some(known) = self.names.get(&name) {
            assert!(known.width == width, "engine: a name declared again with another width");
            return *known;
        }
        let numbers = [name.letter, name.index, name.suffix, width as u32];
        let term = self.term(DECLARE, &numbers.map(words::number));
        let declared = BitVec { term, width };
        self.names.insert(name, declared);
        self.by_term.insert(term, name);
        declared
    }
}

/// The engine's answer to check.
#[derive(Debug, Clone, Copy, PartialEq, Eq)]
pub enum Answer {
    Unsat,
    /// Sat, with every bit 0.
    Sat,
    /// Sat, and an error at the last value that the marks let expect: what the Rust would do next is to write a
    /// message, which needs a file that was not given and does not end where nets replace each other in a circle.
    SatThenStop,
}

/// The error that ends a run after sat.
#[derive(Debug)]
pub struct Stopped;

/// The engine handed to the Rust; what it heard stays with the caller.
pub struct Recorder {
    heard: Rc<RefCell<Record>>,
    answer: Answer,
}

impl Recorder {
    /// An engine for a design of so many slots, with what it will have heard.
    pub fn new(slots: usize, answer: Answer, keep: bool) -> (Self, Rc<RefCell<Record>>) {
        let heard = Rc::new(RefCell::new(Record { marks: vec![0; slots], keep, ..Record::default() }));
        (Recorder { heard: heard.clone(), answer }, heard)
    }

    fn term(&self, operation: u32, arguments: &[u32]) -> u32 {
        self.heard.borrow_mut().term(operation, arguments)
    }

    fn bool_of(&self, operation: u32, terms: &[u32]) -> Bool {
        Bool(self.term(operation, &terms.iter().map(|term| reference(*term)).collect::<Vec<_>>()))
    }

    fn bit_vec_of(&self, operation: u32, terms: &[u32], width: usize) -> BitVec {
        assert!((1..=64).contains(&width), "engine: a bit vector of width {width}");
        BitVec { term: self.bool_of(operation, terms).0, width }
    }

    /// A call of two bit vectors of one width, which gives a third.
    fn bit_wise(&self, operation: u32, a: BitVec, b: BitVec) -> BitVec {
        one_width(a, b);
        self.bit_vec_of(operation, &[a.term, b.term], a.width)
    }

    /// A call of two bit vectors of one width, which gives a Bool.
    fn comparison(&self, operation: u32, a: BitVec, b: BitVec) -> Bool {
        one_width(a, b);
        self.bool_of(operation, &[a.term, b.term])
    }
}

fn reference(term: u32) -> u32 {
    words::word(TERM, term)
}

fn one_width(a: BitVec, b: BitVec) {
    assert!(a.width == b.width, "engine: widths {} and {} in one call", a.width, b.width);
}

fn no_record(call: &str) -> ! {
    panic!("{REFUSED_CALL}{call} has no record")
}

impl SmtEngine for Recorder {
    type Bool = Bool;
    type BitVec = BitVec;
    type Error = Stopped;

    fn build_bool_lit(&self, value: bool) -> Bool {
        Bool(self.term(BOOL_LITERAL, &[words::number(value as u32)]))
    }

    fn build_bool_eq(&self, a: Bool, b: Bool) -> Bool {
        self.bool_of(EQUAL, &[a.0, b.0])
    }

    fn build_bool_ite(&self, cond: Bool, if_true: Bool, if_false: Bool) -> Bool {
        self.bool_of(BOOL_ITE, &[cond.0, if_true.0, if_false.0])
    }

    fn build_bool_let(&self, _var: &str, _expr: Bool, _body: impl FnOnce(Bool) -> Bool) -> Bool {
        no_record("bool let")
    }

    fn build_not(&self, a: Bool) -> Bool {
        self.bool_of(NOT, &[a.0])
    }

    fn build_and(&self, args: &[Bool]) -> Bool {
        assert!(!args.is_empty(), "engine: an and of none");
        self.bool_of(AND, &args.iter().map(|arg| arg.0).collect::<Vec<_>>())
    }

    fn build_or(&self, _args: &[Bool]) -> Bool {
        no_record("or")
    }

    fn build_xor(&self, _args: &[Bool]) -> Bool {
        no_record("xor")
    }

    fn build_bitvec_lit(&self, value: &Const) -> BitVec {
        let width = value.len();
        assert!((1..=64).contains(&width), "engine: a literal of width {width}");
        let mut arguments = vec![words::number(width as u32)];
        arguments.resize(1 + width.div_ceil(16), words::number(0));
        for (bit, trit) in value.iter().enumerate() {
            assert!(trit != Trit::Undef, "engine: a literal with an X");
            if trit == Trit::One {
                arguments[1 + bit / 16] |= 1 << (bit % 16);
            }
        }
        BitVec { term: self.term(LITERAL, &arguments), width }
    }

    fn build_bitvec_eq(&self, a: BitVec, b: BitVec) -> Bool {
        self.comparison(EQUAL, a, b)
    }

    fn build_bitvec_ite(&self, cond: Bool, if_true: BitVec, if_false: BitVec) -> BitVec {
        one_width(if_true, if_false);
        self.bit_vec_of(ITE, &[cond.0, if_true.term, if_false.term], if_true.width)
    }

    fn build_bitvec_let(&self, _var: &str, _expr: BitVec, _body: impl FnOnce(BitVec) -> BitVec) -> BitVec {
        no_record("bit vector let")
    }

    fn build_concat(&self, msb: BitVec, lsb: BitVec) -> BitVec {
        self.bit_vec_of(CONCAT, &[msb.term, lsb.term], msb.width + lsb.width)
    }

    fn build_extract(&self, msb: usize, lsb: usize, arg: BitVec) -> BitVec {
        assert!(lsb <= msb && msb < arg.width, "engine: bits {msb} to {lsb} of {}", arg.width);
        let arguments = [words::number(msb as u32), words::number(lsb as u32), reference(arg.term)];
        BitVec { term: self.term(EXTRACT, &arguments), width: msb - lsb + 1 }
    }

    fn build_bvnot(&self, a: BitVec) -> BitVec {
        self.bit_vec_of(BVNOT, &[a.term], a.width)
    }

    fn build_bvand(&self, a: BitVec, b: BitVec) -> BitVec {
        self.bit_wise(BVAND, a, b)
    }

    fn build_bvor(&self, a: BitVec, b: BitVec) -> BitVec {
        self.bit_wise(BVOR, a, b)
    }

    fn build_bvxor(&self, a: BitVec, b: BitVec) -> BitVec {
        self.bit_wise(BVXOR, a, b)
    }

    fn build_bvadd(&self, a: BitVec, b: BitVec) -> BitVec {
        self.bit_wise(BVADD, a, b)
    }

    fn build_bvcomp(&self, a: BitVec, b: BitVec) -> BitVec {
        one_width(a, b);
        self.bit_vec_of(BVCOMP, &[a.term, b.term], 1)
    }

    fn build_bvult(&self, a: BitVec, b: BitVec) -> Bool {
        self.comparison(BVULT, a, b)
    }

    fn build_bvslt(&self, a: BitVec, b: BitVec) -> Bool {
        self.comparison(BVSLT, a, b)
    }

    fn build_bvshl(&self, a: BitVec, b: BitVec) -> BitVec {
        self.bit_wise(BVSHL, a, b)
    }

    fn build_bvlshr(&self, a: BitVec, b: BitVec) -> BitVec {
        self.bit_wise(BVLSHR, a, b)
    }

    fn build_bvashr(&self, a: BitVec, b: BitVec) -> BitVec {
        self.bit_wise(BVASHR, a, b)
    }

    fn build_bvmul(&self, a: BitVec, b: BitVec) -> BitVec {
        self.bit_wise(BVMUL, a, b)
    }

    fn build_bvudiv(&self, _a: BitVec, _b: BitVec) -> BitVec {
        no_record("bvudiv")
    }

    fn build_bvurem(&self, _a: BitVec, _b: BitVec) -> BitVec {
        no_record("bvurem")
    }

    fn build_bvsdiv(&self, _a: BitVec, _b: BitVec) -> BitVec {
        no_record("bvsdiv")
    }

    fn build_bvsrem(&self, _a: BitVec, _b: BitVec) -> BitVec {
        no_record("bvsrem")
    }

    fn declare_bool_const(&self, _name: &str) -> Result<Bool, Self::Error> {
        no_record("a declared Bool")
    }

    fn declare_bitvec_const(&self, name: &str, width: usize) -> Result<BitVec, Self::Error> {
        assert!((1..=64).contains(&width), "engine: a name of width {width}");
        Ok(self.heard.borrow_mut().declare(Name::parse(name), width))
    }

    fn assert(&mut self, term: Bool) -> Result<(), Self::Error> {
        self.heard.borrow_mut().record(ASSERT, &[reference(term.0)]);
        Ok(())
    }

    fn check(&mut self) -> Result<SmtResponse, Self::Error> {
        let mut heard = self.heard.borrow_mut();
        heard.record(CHECK, &[]);
        Ok(match self.answer {
            Answer::Unsat => SmtResponse::Unsat,
            Answer::SatThenStop if heard.marked() == 0 => SmtResponse::Unsat,
            _ => SmtResponse::Sat,
        })
    }

    fn get_bool(&self, _term: &Bool) -> Result<bool, Self::Error> {
        no_record("the value of a Bool")
    }

    /// After sat, every bit is 0; the names asked for are kept.
    fn get_bitvec(&self, term: &BitVec) -> Result<Const, Self::Error> {
        let mut heard = self.heard.borrow_mut();
        let name = heard.by_term[&term.term];
        heard.asked.push(name);
        let last = heard.asked.len() == 2 * heard.marked();
        if last && self.answer == Answer::SatThenStop { Err(Stopped) } else { Ok(Const::zero(term.width)) }
    }
}
