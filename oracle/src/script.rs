//! The text of recorded calls, as document 01's example has it, to lay the two side by side.

use crate::words;

/// SMT-LIB's names of the calls that are written as an operation before its arguments.
#[rustfmt::skip]
const OPERATIONS: [&str; 28] = [
    "", "ite", "not", "and", "", "=", "ite", "concat", "", "bvnot", "bvand", "bvor", "bvxor", "bvadd", "bvcomp",
    "bvult", "bvslt", "bvshl", "bvlshr", "bvashr", "bvmul", "", "", "", "bvudiv", "bvurem", "bvsdiv", "bvsrem",
];

/// The operations whose term is a Bool.
const BOOLS: [u32; 7] = [0, 1, 2, 3, 5, 15, 16];

/// The script of call words and marks.
pub fn script(calls: &[u32], marks: &[u32]) -> String {
    let mut text = "(set-option :produce-models true)\n(set-logic QF_BV)\n".to_string();
    let mut widths: Vec<u32> = vec![];
    let mut names = vec![];
    let mut asked = false;
    let mut place = 0;
    while place < calls.len() {
        let operation = words::operation(calls[place]);
        let end = place + 1 + words::count(calls[place]);
        let arguments = calls[place + 1..end].iter().map(|word| words::payload(*word)).collect::<Vec<_>>();
        let of = |at: usize| &names[arguments[at] as usize];
        place = end;
        let term = names.len();
        let width = |at: usize| widths[arguments[at] as usize];
        match operation {
            21 => {
                let letter = ["n", "p", "t"][arguments[0] as usize];
                let suffix = ["", "x", "y"][arguments[2] as usize];
                let name = format!("{letter}{}{suffix}", arguments[1]);
                text += &format!("(declare-const {name} (_ BitVec {}))\n", arguments[3]);
                widths.push(arguments[3]);
                names.push(name);
                continue;
            }
            22 => {
                text += &format!("(assert {})\n", of(0));
                continue;
            }
            23 => {
                text += "(check-sat)\n";
                asked = true;
                continue;
            }
            _ => (),
        }
        let body = match operation {
            0 => ["false", "true"][arguments[0] as usize].to_string(),
            3 if arguments.len() == 1 => of(0).clone(),
            4 => {
                let bit = |at: u32| arguments[1 + at as usize / 16] >> (at % 16) & 1;
                "#b".chars().chain((0..arguments[0]).rev().map(|at| if bit(at) == 1 { '1' } else { '0' })).collect()
            }
            8 => format!("((_ extract {} {}) {})", arguments[0], arguments[1], of(2)),
            _ => {
                let terms = (0..arguments.len()).map(|at| of(at).clone()).collect::<Vec<_>>();
                format!("({} {})", OPERATIONS[operation as usize], terms.join(" "))
            }
        };
        let term_width = match operation {
            4 => arguments[0],
            6 => width(1),
            7 => width(0) + width(1),
            8 => arguments[0] - arguments[1] + 1,
            14 => 1,
            other if BOOLS.contains(&other) => 0,
            _ => width(0),
        };
        let sort = if term_width == 0 { "Bool".to_string() } else { format!("(_ BitVec {term_width})") };
        text += &format!("(define-fun k{term} () {sort} {body})\n");
        widths.push(term_width);
        names.push(format!("k{term}"));
    }
    if !asked {
        return text + "; nothing asked\n";
    }
    let values = marks.iter().enumerate().filter(|(_, mark)| **mark > 0).map(|(slot, mark)| {
        let letter = if *mark == 1 { 'n' } else { 'p' };
        format!("{letter}{slot}x {letter}{slot}y")
    });
    let values = values.collect::<Vec<_>>();
    if !values.is_empty() {
        text += &format!("(get-value ({}))\n", values.join(" "));
    }
    text
}
