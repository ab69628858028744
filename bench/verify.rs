//! Times the order of work of the proved archive beside the given Rust's, on the same lists. For each list: the Rust's
//! `Design::verify` on a design that is made already, into an engine that writes the same words into a buffer, in two
//! forms; `vm_verify`, which reads the list, counts the room and writes the calls; the count alone (`vm_counts`); the
//! list reader (`vm_read`); and a copy of the call words. Every buffer is warm. A time is the least of forty rounds.
#![allow(dead_code)]

use std::cell::UnsafeCell;
use std::collections::HashMap;
use std::hint::black_box;
use std::time::Instant;

use netlist::{Const, SmtEngine, SmtResponse, Trit};

#[path = "../oracle/src/changed.rs"]
mod changed;
#[path = "../oracle/src/features.rs"]
mod features;
#[path = "../oracle/src/list.rs"]
mod list;
#[path = "../oracle/src/port.rs"]
mod port;
#[path = "../oracle/src/record.rs"]
mod record;
#[path = "../oracle/src/rust.rs"]
mod rust;
#[path = "../oracle/src/twins.rs"]
mod twins;
#[path = "../oracle/src/words.rs"]
mod words;

use list::{Cell, Control, Dff, List, Net};

// ---- an engine that only writes

#[derive(Clone, Copy)]
struct Bool(u32);

#[derive(Clone, Copy)]
struct BitVec(u32, usize);

struct Written {
    words: Vec<u32>,
    at: usize,
    terms: u32,
    /// The terms of the names n x, n y, p x, p y of each slot, by four; none is the largest number.
    names: Vec<u32>,
    /// The terms of names, as an engine keeps them that takes a name for a text.
    texts: HashMap<String, u32>,
}

impl Written {
    fn begin(&mut self) {
        self.at = 0;
        self.terms = 0;
        self.names.fill(u32::MAX);
        self.texts.clear();
    }

    fn word(&mut self, word: u32) {
        self.words[self.at] = word;
        self.at += 1;
    }

    fn term(&mut self, operation: u32, arguments: &[u32]) -> u32 {
        self.word(2 << 29 | operation | 32 * arguments.len() as u32);
        for argument in arguments {
            self.word(*argument);
        }
        self.terms += 1;
        self.terms - 1
    }

    fn declare(&mut self, name: &str, width: usize, texts: bool) -> BitVec {
        if texts {
            if let Some(term) = self.texts.get(name) {
                return BitVec(*term, width);
            }
            self.texts.insert(name.to_string(), self.terms);
        }
        let bytes = name.as_bytes();
        let letter = match bytes[0] {
            b'n' => 0,
            b'p' => 1,
            _ => 2,
        };
        let (digits, suffix) = match bytes[bytes.len() - 1] {
            b'x' => (&bytes[1..bytes.len() - 1], 1),
            b'y' => (&bytes[1..bytes.len() - 1], 2),
            _ => (&bytes[1..], 0),
        };
        let index = digits.iter().fold(0, |index, digit| 10 * index + (digit - b'0') as u32);
        let known = (4 * index + 2 * letter + suffix).wrapping_sub(1) as usize;
        if !texts && letter < 2 && self.names[known] < u32::MAX {
            return BitVec(self.names[known], width);
        }
        let term = self.term(21, &[letter, index, suffix, width as u32].map(|number| 3 << 29 | number));
        if !texts && letter < 2 {
            self.names[known] = term;
        }
        BitVec(term, width)
    }
}

/// The engine, and whether it keeps names as texts or by their slots.
struct Engine<'a, const TEXTS: bool>(&'a UnsafeCell<Written>);

fn reference(term: u32) -> u32 {
    4 << 29 | term
}

impl<const TEXTS: bool> Engine<'_, TEXTS> {
    // No two of these live at once: every method of the engine ends before another begins.
    #[allow(clippy::mut_from_ref)]
    fn written(&self) -> &mut Written {
        unsafe { &mut *self.0.get() }
    }

    fn term(&self, operation: u32, arguments: &[u32]) -> u32 {
        self.written().term(operation, arguments)
    }

    fn two(&self, operation: u32, a: BitVec, b: BitVec, width: usize) -> BitVec {
        BitVec(self.term(operation, &[reference(a.0), reference(b.0)]), width)
    }
}

fn unused() -> ! {
    panic!("a call without a record")
}

impl<const TEXTS: bool> SmtEngine for Engine<'_, TEXTS> {
    type Bool = Bool;
    type BitVec = BitVec;
    type Error = ();

    fn build_bool_lit(&self, value: bool) -> Bool {
        Bool(self.term(0, &[3 << 29 | value as u32]))
    }
    fn build_bool_eq(&self, _: Bool, _: Bool) -> Bool {
        unused()
    }
    fn build_bool_ite(&self, cond: Bool, a: Bool, b: Bool) -> Bool {
        Bool(self.term(1, &[reference(cond.0), reference(a.0), reference(b.0)]))
    }
    fn build_bool_let(&self, _: &str, _: Bool, _: impl FnOnce(Bool) -> Bool) -> Bool {
        unused()
    }
    fn build_not(&self, a: Bool) -> Bool {
        Bool(self.term(2, &[reference(a.0)]))
    }
    fn build_and(&self, args: &[Bool]) -> Bool {
        let written = self.written();
        written.word(2 << 29 | 3 | 32 * args.len() as u32);
        for arg in args {
            written.word(reference(arg.0));
        }
        written.terms += 1;
        Bool(written.terms - 1)
    }
    fn build_or(&self, _: &[Bool]) -> Bool {
        unused()
    }
    fn build_xor(&self, _: &[Bool]) -> Bool {
        unused()
    }
    fn build_bitvec_lit(&self, value: &Const) -> BitVec {
        let width = value.len();
        let mut arguments = [3 << 29; 5];
        arguments[0] |= width as u32;
        for (bit, trit) in value.iter().enumerate() {
            arguments[1 + bit / 16] |= ((trit == Trit::One) as u32) << (bit % 16);
        }
        BitVec(self.term(4, &arguments[..1 + width.div_ceil(16)]), width)
    }
    fn build_bitvec_eq(&self, a: BitVec, b: BitVec) -> Bool {
        Bool(self.two(5, a, b, 1).0)
    }
    fn build_bitvec_ite(&self, cond: Bool, a: BitVec, b: BitVec) -> BitVec {
        BitVec(self.term(6, &[reference(cond.0), reference(a.0), reference(b.0)]), a.1)
    }
    fn build_bitvec_let(&self, _: &str, _: BitVec, _: impl FnOnce(BitVec) -> BitVec) -> BitVec {
        unused()
    }
    fn build_concat(&self, msb: BitVec, lsb: BitVec) -> BitVec {
        self.two(7, msb, lsb, msb.1 + lsb.1)
    }
    fn build_extract(&self, msb: usize, lsb: usize, arg: BitVec) -> BitVec {
        BitVec(self.term(8, &[3 << 29 | msb as u32, 3 << 29 | lsb as u32, reference(arg.0)]), msb - lsb + 1)
    }
    fn build_bvnot(&self, a: BitVec) -> BitVec {
        BitVec(self.term(9, &[reference(a.0)]), a.1)
    }
    fn build_bvand(&self, a: BitVec, b: BitVec) -> BitVec {
        self.two(10, a, b, a.1)
    }
    fn build_bvor(&self, a: BitVec, b: BitVec) -> BitVec {
        self.two(11, a, b, a.1)
    }
    fn build_bvxor(&self, a: BitVec, b: BitVec) -> BitVec {
        self.two(12, a, b, a.1)
    }
    fn build_bvadd(&self, a: BitVec, b: BitVec) -> BitVec {
        self.two(13, a, b, a.1)
    }
    fn build_bvcomp(&self, a: BitVec, b: BitVec) -> BitVec {
        self.two(14, a, b, 1)
    }
    fn build_bvult(&self, a: BitVec, b: BitVec) -> Bool {
        Bool(self.two(15, a, b, 1).0)
    }
    fn build_bvslt(&self, a: BitVec, b: BitVec) -> Bool {
        Bool(self.two(16, a, b, 1).0)
    }
    fn build_bvshl(&self, a: BitVec, b: BitVec) -> BitVec {
        self.two(17, a, b, a.1)
    }
    fn build_bvlshr(&self, a: BitVec, b: BitVec) -> BitVec {
        self.two(18, a, b, a.1)
    }
    fn build_bvashr(&self, a: BitVec, b: BitVec) -> BitVec {
        self.two(19, a, b, a.1)
    }
    fn build_bvmul(&self, a: BitVec, b: BitVec) -> BitVec {
        self.two(20, a, b, a.1)
    }
    fn build_bvudiv(&self, _: BitVec, _: BitVec) -> BitVec {
        unused()
    }
    fn build_bvurem(&self, _: BitVec, _: BitVec) -> BitVec {
        unused()
    }
    fn build_bvsdiv(&self, _: BitVec, _: BitVec) -> BitVec {
        unused()
    }
    fn build_bvsrem(&self, _: BitVec, _: BitVec) -> BitVec {
        unused()
    }
    fn declare_bool_const(&self, _: &str) -> Result<Bool, ()> {
        unused()
    }
    fn declare_bitvec_const(&self, name: &str, width: usize) -> Result<BitVec, ()> {
        Ok(self.written().declare(name, width, TEXTS))
    }
    fn assert(&mut self, term: Bool) -> Result<(), ()> {
        let written = self.written();
        written.word(2 << 29 | 22 | 32);
        written.word(reference(term.0));
        Ok(())
    }
    fn check(&mut self) -> Result<SmtResponse, ()> {
        self.written().word(2 << 29 | 23);
        Ok(SmtResponse::Unsat)
    }
    fn get_bool(&self, _: &Bool) -> Result<bool, ()> {
        unused()
    }
    fn get_bitvec(&self, _: &BitVec) -> Result<Const, ()> {
        unused()
    }
}

// ---- lists

fn slots(first: u32, width: u32) -> Vec<Net> {
    (first..first + width).map(Net::of_slot).collect()
}

fn control(slot: u32, inverted: bool) -> Control {
    Control { net: Net::of_slot(slot), inverted }
}

fn constants(width: u32) -> Vec<Net> {
    (0..width).map(|bit| Net(bit % 2)).collect()
}

const LOGIC: [u32; 18] = [
    list::BUF,
    list::NOT,
    list::AND,
    list::OR,
    list::XOR,
    list::MUX,
    list::ADC,
    list::AIG,
    list::EQ,
    list::ULT,
    list::SLT,
    list::SHL,
    list::USHR,
    list::SSHR,
    list::XSHR,
    list::MUL,
    list::MATCH,
    list::ASSIGN,
];

/// A cell of an operation that reads a value of a width and the first slots, which are inputs.
fn cell(op: u32, a: Vec<Net>, width: u32) -> Cell {
    let b = slots(width, width);
    let (s, t) = (2 * width, 2 * width + 1);
    match op {
        list::BUF | list::NOT => Cell::One(op, a),
        list::MUX => Cell::Mux(Net::of_slot(s), a, b),
        list::ADC => Cell::Adc(a, b, Net::of_slot(s)),
        list::AIG => Cell::Aig(Control { net: a[0], inverted: false }, control(s, true)),
        list::SHL..=list::XSHR => Cell::Shift { op, value: a, amount: slots(0, width.min(6)), stride: 1 },
        list::MATCH => Cell::Match {
            value: a,
            enable: Net::of_slot(s),
            patterns: vec![vec![constants(width); 2]; width.min(4) as usize],
        },
        list::ASSIGN => {
            Cell::Assign { value: a, enable: Net::of_slot(s), update: slots(0, width / 2), offset: width / 4 }
        }
        list::DFF => Cell::Dff(Dff {
            reset_over_enable: true,
            clock: control(s, false),
            clear: control(t, false),
            reset: control(s, true),
            enable: control(t, true),
            data: a,
            clear_value: constants(width),
            reset_value: constants(width),
        }),
        _ => Cell::Two(op, a, b),
    }
}

/// Inputs for cells of a width, and as many cells in a chain as fit, up to a number; the last is replaced by its like.
fn chain(op: u32, width: u32, most: usize) -> List {
    let mut list =
        List { base: vec![Cell::Input(width), Cell::Input(width), Cell::Input(1), Cell::Input(1)], ..List::default() };
    let mut first = 2 * width + 2;
    let mut read = slots(0, width);
    let mut words = 64;
    let mut last = None;
    for _ in 0..most {
        let cell = cell(op, read.clone(), width);
        words += cell.words().len();
        if first + cell.slots() > 4096 || words + cell.words().len() > 16384 {
            break;
        }
        let out = cell.output_width();
        if out >= width {
            read = slots(first, width);
        } else if out > 0 {
            read[0] = Net::of_slot(first);
        }
        last = Some((first, cell.clone()));
        first += cell.slots();
        list.base.push(cell);
    }
    list.cell_replacements.extend(last);
    list
}

/// A small design of so many cells of one bit, of several operations, with a net replacement.
fn small(cells: usize) -> List {
    let mut list = List { base: vec![Cell::Input(1)], ..List::default() };
    for at in 1..cells as u32 {
        let (a, b) = (vec![Net::of_slot(at - 1)], vec![Net::of_slot(at / 2)]);
        list.base.push(match at % 4 {
            0 => Cell::Mux(Net::of_slot(0), a, b),
            1 => Cell::One(list::NOT, a),
            2 => Cell::Two(list::AND, a, b),
            _ => Cell::Two(list::XOR, a, b),
        });
    }
    list.net_replacements.push((Net::of_slot(cells as u32 - 1), Net::ZERO));
    list
}

/// The most calls that are known for the words of a list: Matches without width, each replaced by its like.
fn largest() -> List {
    let cell = Cell::Match { value: vec![], enable: Net::ONE, patterns: vec![vec![vec![]; 64]; 63] };
    List {
        base: vec![cell.clone(); 65],
        cell_replacements: (0..65).map(|at| (63 * at, cell.clone())).collect(),
        ..List::default()
    }
}

// ---- times

/// Seconds of one call of each, the least of several rounds in which they take turns.
fn least(runs: &mut [&mut dyn FnMut()]) -> Vec<f64> {
    let mut calls = vec![1u32; runs.len()];
    let mut all = vec![f64::MAX; runs.len()];
    let mut rounds = 0;
    while rounds < 40 {
        let mut took = 0.0;
        for (at, run) in runs.iter_mut().enumerate() {
            let start = Instant::now();
            (0..calls[at]).for_each(|_| run());
            let seconds = start.elapsed().as_secs_f64();
            all[at] = all[at].min(seconds / calls[at] as f64);
            if seconds < 0.0002 {
                calls[at] *= 2;
            }
            took += seconds;
        }
        rounds += if took > 0.1 { 14 } else { 1 };
    }
    all
}

struct Times {
    list: usize,
    words: usize,
    texts: f64,
    rust: f64,
    verify: f64,
    count: f64,
    read: f64,
    copy: f64,
}

fn times(list: &List) -> Times {
    let words = list.words();
    let mut counts = [0u64; 3];
    assert!(port::counts(None, &words, &mut counts) >> 48 == 0, "a list that is refused");
    let room = counts[2] as usize;
    let slots = list.slots() as usize;
    let written = UnsafeCell::new(Written {
        words: vec![0; room],
        at: 0,
        terms: 0,
        names: vec![0; 4 * slots],
        texts: HashMap::new(),
    });
    let design = rust::design_as_listed(list);
    let (mut calls, mut recorded) = (vec![0u32; room], vec![0u8; slots]);
    let (copied, mut copy) = (vec![1u32; room], vec![0u32; room]);
    let all = least(&mut [
        &mut || {
            unsafe { &mut *written.get() }.begin();
            black_box(design.verify(Engine::<true>(&written)).is_ok());
        },
        &mut || {
            unsafe { &mut *written.get() }.begin();
            black_box(design.verify(Engine::<false>(&written)).is_ok());
        },
        &mut || {
            black_box(port::verify(None, &words, &mut calls, &mut recorded));
        },
        &mut || {
            black_box(port::counts(None, &words, &mut counts));
        },
        &mut || {
            black_box(port::read(&words));
        },
        &mut || {
            copy.copy_from_slice(black_box(&copied));
            black_box(&mut copy);
        },
    ]);
    let written = written.into_inner();
    assert!(written.at == room && written.words == calls, "other calls than the Rust's");
    Times {
        list: words.len(),
        words: room,
        texts: all[0],
        rust: all[1],
        verify: all[2],
        count: all[3],
        read: all[4],
        copy: all[5],
    }
}

const HEAD: &str =
    "                          list     calls    texts     Rust   verify    count     copy    times     read";

fn line(name: &str, t: &Times) {
    let per = |seconds: f64, words: usize| seconds * 1e9 / words as f64;
    println!(
        "{name:22} {:8} {:9} {:8.2} {:8.2} {:8.2} {:8.2} {:8.2} {:8.1} {:8.2}",
        t.list,
        t.words,
        per(t.texts, t.words),
        per(t.rust, t.words),
        per(t.verify, t.words),
        per(t.count, t.words),
        per(t.copy, t.words),
        t.rust / t.verify,
        per(t.read, t.list),
    );
}

/// The least and the most of a class.
fn class(name: &str, all: &[Times]) {
    let span = |of: &dyn Fn(&Times) -> f64| {
        let every: Vec<f64> = all.iter().map(of).collect();
        (every.iter().copied().fold(f64::MAX, f64::min), every.iter().copied().fold(0.0, f64::max))
    };
    let (least, most) = span(&|t| t.rust / t.verify);
    let (least_texts, most_texts) = span(&|t| t.texts / t.verify);
    println!(
        "{name}: {least:.1} to {most:.1} times as fast as the Rust, {least_texts:.1} to {most_texts:.1} with texts;"
    );
    let (verify, count, read) = (
        span(&|t| t.verify * 1e9 / t.words as f64),
        span(&|t| t.count * 1e9 / t.words as f64),
        span(&|t| t.read * 1e9 / t.list as f64),
    );
    println!(
        "  {:.2} to {:.2} ns a call word, {:.2} to {:.2} to count; {:.2} to {:.2} ns a list word to read\n",
        verify.0, verify.1, count.0, count.1, read.0, read.1
    );
}

fn main() {
    println!(
        "ns for each call word: the Rust with an engine that keeps names as texts, and with one that keeps them by"
    );
    println!("their slots; vm_verify; vm_counts; a copy. times: the second of the Rust's times by vm_verify's.");
    println!("ns for each list word: vm_read");
    println!("{HEAD}");
    let mut all = vec![];
    for cells in [1, 2, 3, 5, 10, 20] {
        all.push(times(&small(cells)));
        line(&format!("small, {cells} cells"), &all[all.len() - 1]);
    }
    class("small designs", &all);
    let ops: Vec<u32> = LOGIC.into_iter().chain([list::DFF]).collect();
    for width in [1, 17, 63] {
        all.clear();
        for op in &ops {
            all.push(times(&chain(*op, width, 1)));
            line(&format!("{} #{width}", list::NAMES[*op as usize]), &all[all.len() - 1]);
        }
        class(&format!("one cell of width {width}"), &all);
    }
    for width in [1, 17, 63] {
        all.clear();
        for op in &ops {
            all.push(times(&chain(*op, width, 4096)));
            line(&format!("{} #{width}, many", list::NAMES[*op as usize]), &all[all.len() - 1]);
        }
        class(&format!("as many cells of width {width} as fit"), &all);
    }
    let largest = times(&largest());
    line("largest room", &largest);
    println!("largest room: told in {:.3} s; the Rust takes {:.2} s\n", largest.count, largest.rust);
    println!("growth for twice as many cells");
    for (op, width) in [(list::NOT, 1), (list::AND, 17), (list::MUX, 17), (list::DFF, 1)] {
        let mut before: Option<Times> = None;
        for cells in [8, 16, 32, 64, 128] {
            let t = times(&chain(op, width, cells));
            if let Some(b) = &before {
                println!(
                    "{} #{width}, {cells} cells: {} call words, {:.2} times the time for {:.2} times the words",
                    list::NAMES[op as usize],
                    t.words,
                    t.verify / b.verify,
                    t.words as f64 / b.words as f64
                );
            }
            before = Some(t);
        }
    }
}
