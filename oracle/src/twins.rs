//! The calls of the inductive mode, which document 02's change 7 adds: a Dff's net replaced by a Dff's is judged by its
//! induction step alone. The Rust has the ported mode only. So it is run as it is, and the ordinary obligation of each
//! such pair is taken out of its calls, once it is seen to be what is taken for it.

use std::collections::{HashMap, HashSet};

use crate::changed::{self, Changed};
use crate::features;
use crate::list::{Cell, List, Net};
use crate::record::{AND, ASSERT, BVAND, BVNOT, CHECK, DECLARE, EQUAL, NOT, Name, Read, Record};
use crate::words;

/// How many terms tell whether a net refines another.
const REFINES: u32 = 7;

/// An obligation of a list.
#[derive(Clone, Copy)]
enum Obligation {
    /// It is made in both modes.
    InBoth,
    /// The ordinary one of a Dff's net replaced by a Dff's: their slots, and whether the new one is read past.
    Ordinary { from: u32, to: u32, past: bool },
}

/// The net replacements of a Dff's net by another Dff's, as slots, with whether the second is of the base. Flip-flops
/// without width count too; what replaces a cell does not.
pub fn joined(list: &List) -> Vec<(u32, u32, bool)> {
    list.net_replacements.iter().filter_map(|(from, to)| joins(list, *from, *to)).collect()
}

/// Such a replacement, if this is one.
pub fn joins(list: &List, from: Net, to: Net) -> Option<(u32, u32, bool)> {
    match (features::cell_of(list, from)?, features::cell_of(list, to)?) {
        ((Cell::Dff(_), _), (Cell::Dff(_), in_base)) if from != to => Some((from.slot()?, to.slot()?, in_base)),
        _ => None,
    }
}

/// The obligations of a list in the ported mode, in their order: of replaced cells, then of replaced nets.
fn obligations(list: &List) -> Vec<Obligation> {
    let cells = list.cell_replacements.iter().filter(|(_, new)| new.output_width() > 0);
    let mut found = cells.map(|_| Obligation::InBoth).collect::<Vec<_>>();
    for (from, to) in list.net_replacements.iter().filter(|(from, to)| from != to) {
        if let Some((from, to, past)) = joins(list, *from, *to) {
            found.extend([Obligation::InBoth, Obligation::Ordinary { from, to, past }]);
        } else if !matches!(features::cell_of(list, *from), Some((Cell::Void, _))) {
            found.push(Obligation::InBoth);
        }
    }
    found
}

/// A net's names, as declared: the terms of its x and y.
type Names = HashMap<(u32, u32), [u32; 2]>;

/// The terms of all declared n and p names, by letter and slot.
fn names(records: &[&[u32]]) -> Names {
    let mut names = Names::new();
    let makers = records.iter().filter(|record| changed::makes_term(words::operation(record[0])));
    for (term, record) in makers.enumerate().filter(|(_, record)| words::operation(record[0]) == DECLARE) {
        let number = |at: usize| words::payload(record[at]);
        if number(1) < 2 {
            names.entry((number(1), number(2))).or_default()[number(3) as usize - 1] = term as u32;
        }
    }
    names
}

/// The records of whether a net refines another, from this term on, as `tv_refines` makes them of their x's and y's.
fn refines(from: [u32; 2], to: [u32; 2], first: u32) -> Vec<Vec<u32>> {
    let call = |operation: u32, terms: &[u32]| {
        let mut record = vec![words::head(operation, terms.len())];
        record.extend(terms.iter().map(|term| changed::reference(*term)));
        record
    };
    vec![
        call(BVNOT, &[from[0]]),
        call(BVAND, &[to[0], from[0]]),
        call(EQUAL, &[to[0], first + 1]),
        call(BVAND, &[first, from[1]]),
        call(BVAND, &[first, to[1]]),
        call(EQUAL, &[first + 3, first + 4]),
        call(AND, &[first + 2, first + 5]),
    ]
}

/// The arguments of the query's `and`, or none where nothing is asked: the last records are that and, its not, its
/// assertion and the check.
fn asked<'a>(records: &[&'a [u32]]) -> &'a [u32] {
    if records.last().is_none_or(|record| words::operation(record[0]) != CHECK) {
        return &[];
    }
    let query = &records[records.len() - 4..];
    let operations = query.iter().map(|record| words::operation(record[0]));
    assert!(operations.eq([AND, NOT, ASSERT, CHECK]), "calls that end otherwise");
    &query[0][1..]
}

/// The marks that these reads leave.
fn marks<'a>(slots: usize, reads: impl Iterator<Item = &'a Read>) -> Vec<u32> {
    let mut marks = vec![0; slots];
    for Read { name, .. } in reads {
        marks[name.index as usize] = 1 + name.letter;
    }
    marks
}

/// The first terms of the ordinary obligations of a list's joined flip-flops. Each must be the obligation of just these
/// nets, come right after that of their new states, and read no other net between.
fn ordinary(list: &List, records: &[&[u32]], reads: &[Read]) -> Vec<u32> {
    let names = names(records);
    let makes_term = |at: &usize| changed::makes_term(words::operation(records[*at][0]));
    let makers = (0..records.len()).filter(makes_term).collect::<Vec<_>>();
    let (asked, obligations) = (asked(records), obligations(list));
    assert!(asked.len() == obligations.len(), "{} obligations, {} asked", obligations.len(), asked.len());
    let mut found = vec![];
    for (at, obligation) in obligations.iter().enumerate() {
        let Obligation::Ordinary { from, to, past } = *obligation else { continue };
        let [before, first] = [asked[at - 1], asked[at]].map(|last| words::payload(last) + 1 - REFINES);
        assert!(first == before + REFINES, "an obligation away from its pair's first");
        // That of the new states, then the ordinary one: no other record stands between.
        let place = |term: u32| makers[term as usize];
        assert!(place(first) == place(first - 1) + 1, "a record between two obligations");
        for (term, letter) in [(before, 0), (first, past as u32)] {
            let stands = &records[place(term)..=place(term + REFINES - 1)];
            assert!(stands == refines(names[&(0, from)], names[&(letter, to)], term), "another obligation");
        }
        let start = reads.partition_point(|read| read.terms < first);
        let here = reads[start..].iter().take_while(|read| read.terms == first).map(|read| read.name);
        let [from, to] =
            [(0, from), (past as u32, to)].map(|(letter, index)| move |suffix| Name { letter, index, suffix });
        assert!(here.eq([from(1), from(2), to(1), to(2)]), "other reads");
        found.push(first);
    }
    found
}

/// Takes the ordinary obligations of joined flip-flops out of the Rust's calls on a list, and what they read out of the
/// marks.
pub fn cut(list: &List, record: &mut Record) {
    let records = changed::records(&record.words);
    let firsts = ordinary(list, &records, &record.reads).into_iter().collect::<HashSet<_>>();
    let out = firsts.iter().flat_map(|first| *first..first + REFINES).collect::<HashSet<_>>();
    let mut made = Changed::default();
    for (at, record) in records.iter().enumerate() {
        let operation = words::operation(record[0]);
        if changed::makes_term(operation) && out.contains(&(made.numbers.len() as u32)) {
            made.leave_out();
        } else if at + 4 == records.len() && !firsts.is_empty() {
            let kept = record[1..].iter().copied().filter(|word| !made.is_left_out(*word)).collect::<Vec<_>>();
            made.copy(operation, &kept);
        } else {
            made.copy(operation, &record[1..]);
        }
    }
    let slots = record.marks.len();
    assert!(record.marks == marks(slots, record.reads.iter()), "marks other than by the reads");
    record.marks = marks(slots, record.reads.iter().filter(|read| !firsts.contains(&read.terms)));
    record.count = made.words.len() as u64;
    record.words = made.words;
}
