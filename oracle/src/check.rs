//! The runs that the oracle is trusted for: many lists through the Rust, and through the reader, with the figures.

use netlist::REACHED;

use crate::features::{self, Tally};
use crate::generate::{self, Size};
use crate::list::{Cell, List};
use crate::random::Random;
use crate::read::{self, Fault};
use crate::record::{Answer, CALLS, CHECK, Name, REFUSED_CALL, Record};
use crate::rust::{self, Way};
use crate::scope::Scope;
use crate::{damage, twins, words};

/// What went wrong, counted; a run is good if nothing did.
#[derive(Default)]
struct Findings(Tally);

impl Findings {
    fn expect(&mut self, holds: bool, otherwise: &str, index: u64) {
        if !holds {
            features::add(&mut self.0, otherwise.to_string());
            eprintln!("list {index}: {otherwise}");
        }
    }
}

/// Whether the Rust, after sat, asked for the names that the marks say, slot by slot.
fn asked_as_marked(record: &Record) -> bool {
    let mut marked = vec![];
    for (slot, mark) in record.marks.iter().enumerate().filter(|(_, mark)| **mark > 0) {
        for suffix in [1, 2] {
            marked.push(Name { letter: mark - 1, index: slot as u32, suffix });
        }
    }
    marked == record.asked
}

/// The largest of each number that document 01 bounds, met in a run.
#[derive(Default)]
struct Extremes(Tally);

impl Extremes {
    fn meet(&mut self, name: &str, number: usize) {
        let most = self.0.entry(name.to_string()).or_default();
        *most = (*most).max(number as u64);
    }

    fn meet_list(&mut self, list: &List, words: usize) {
        self.meet("words", words);
        self.meet("slots", list.slots() as usize);
        self.meet("cell replacements", list.cell_replacements.len());
        self.meet("net replacements", list.net_replacements.len());
        for cell in list.cells() {
            self.meet("output width", cell.output_width() as usize);
            match cell {
                Cell::Two(_, a, _) | Cell::One(_, a) | Cell::Adc(a, ..) => self.meet("n", a.len()),
                Cell::Shift { amount, stride, .. } => {
                    self.meet("m", amount.len());
                    self.meet("stride", *stride as usize);
                }
                Cell::Match { patterns, .. } => {
                    self.meet("k", patterns.len());
                    patterns.iter().for_each(|all| self.meet("alternates", all.len()));
                }
                Cell::Assign { update, offset, .. } => {
                    self.meet("u", update.len());
                    self.meet("offset", *offset as usize);
                }
                _ => (),
            }
        }
    }
}

/// Generated lists: the reader takes each apart as it was put together, the Rust makes its calls without a stand-in
/// and without a trap but the known ones, and the marks are what the Rust itself asks for after sat.
fn check_accepted(seed: u64, count: u64, size: Size, scope: Scope, findings: &mut Findings) {
    let (mut met, mut calls, mut panics) = (Tally::new(), [0; CALLS.len()], Tally::new());
    let mut extremes = Extremes::default();
    let (mut list_words, mut call_words, mut longest, mut obliged) = (0, 0, (0, 0), 0);
    let mut modes = Tally::new();
    for index in 0..count {
        let list = generate::generate(seed, index, size, scope);
        let words = list.words();
        findings.expect(read::read(&words) == Ok(list.clone()), "the reader gives another list back", index);
        list_words += words.len();
        extremes.meet_list(&list, words.len());
        features::features(&list).into_iter().for_each(|name| features::add(&mut met, name));

        if scope.inductive && !features::dff_by_void(&list) {
            check_inductive(&list, scope, index, findings, &mut modes);
        }
        let run = rust::run(&list, Way::AsListed, Answer::Unsat, false);
        if let Some(message) = &run.panic {
            findings.expect(!message.starts_with(REACHED), "a stand-in was reached", index);
            findings.expect(!message.starts_with(REFUSED_CALL), "the engine refused a call", index);
            findings.expect(features::known_trap(&list), "the Rust panicked", index);
            features::add(&mut panics, message.clone());
            continue;
        }
        findings.expect(!features::known_trap(&list), "no panic where one was due", index);
        call_words += run.record.count;
        longest = longest.max((run.record.count, words.len()));
        for (sum, here) in calls.iter_mut().zip(run.record.calls) {
            *sum += here;
        }

        let checks = run.record.calls[CHECK as usize];
        if checks > 0 {
            obliged += 1;
            let sat = rust::run(&list, Way::AsListed, Answer::SatThenStop, false);
            findings.expect(sat.record.digest == run.record.digest, "other calls before sat", index);
            findings.expect(asked_as_marked(&sat.record), "marks that the Rust does not ask for", index);
        }
    }
    println!("{count} accepted lists, {list_words} words; {call_words} call words,");
    println!("  at most {} for a list (of {} words); {obliged} lists with an obligation", longest.0, longest.1);
    println!("largest: {}", joined(extremes.0.iter().map(|(name, most)| format!("{name} {most}"))));
    print_tally("panics", &panics);
    if scope.inductive {
        print_tally("both modes, without these pairs that trap", &modes);
    }
    println!("calls: {}", joined(CALLS.iter().zip(calls).map(|(name, many)| format!("{name} {many}"))));
    for kind in ["base ", "added ", "new ", "old ", "replaced by ", "net ", "pair "] {
        let some = met.iter().filter(|(name, _)| name.starts_with(kind));
        println!("{kind}: {}", joined(some.map(|(name, many)| format!("{} {many}", &name[kind.len()..]))));
    }
}

/// A list in the inductive mode. The Rust's builder makes the calls of `Design::verify` when it is handed the list's
/// changes one by one; without the ordinary obligations of joined flip-flops it makes those that are cut out of the
/// Rust's, and asks for what the marks say after sat. For each joined pair the cut is of 21 words.
fn check_inductive(list: &List, scope: Scope, index: u64, findings: &mut Findings, met: &mut Tally) {
    let given = scope.for_the_rust(list);
    let ported = Scope { inductive: false, ..scope }.run(list).record;
    let cut = scope.run(list).record;
    for (inductive, made) in [(false, &ported), (true, &cut)] {
        let built = scope.divided(list, rust::run_builder(&given, inductive, Answer::Unsat, true));
        findings.expect(built.panic.is_none(), "the builder panicked", index);
        findings.expect(built.record.words == made.words, "other calls of the builder", index);
        findings.expect(built.record.marks == made.marks, "other marks of the builder", index);
    }
    let sat = rust::run_builder(&given, true, Answer::SatThenStop, false).record;
    let asks = sat.calls[CHECK as usize] > 0;
    findings.expect(!asks || asked_as_marked(&sat), "marks that the builder does not ask for", index);

    let pairs = twins::joined(list).len();
    findings.expect(ported.words.len() == cut.words.len() + 21 * pairs, "a cut of another length", index);
    findings.expect(pairs > 0 || ported.words == cut.words && ported.marks == cut.marks, "a cut of nothing", index);
    *met.entry("call words in the ported mode".to_string()).or_default() += ported.count;
    *met.entry("call words in the inductive mode".to_string()).or_default() += cut.count;
    *met.entry("joined pairs".to_string()).or_default() += pairs as u64;
    let counted = [
        ("lists with joined flip-flops", pairs > 0),
        ("lists whose calls differ between the modes", ported.words != cut.words),
        ("lists whose marks differ between the modes", ported.marks != cut.marks),
    ];
    counted.iter().filter(|(_, here)| *here).for_each(|(name, _)| features::add(met, name.to_string()));
}

/// Whether a fault is decided by the words up to its place and the list's length.
fn decided_by_prefix(fault: Fault) -> bool {
    matches!(fault.number, 2..=9)
}

/// Damaged lists: the reader answers on each; a fault that the words up to its place decide stays when the words after
/// it change; a list that is accepted is written back as it was; and what the Rust does with refused ones is counted.
fn check_damaged(seed: u64, count: u64, scope: Scope, findings: &mut Findings) {
    let (mut faults, mut of_the_rust) = (Tally::new(), Tally::new());
    for index in 0..count {
        let mut list = damage::damage(seed, index, scope);
        let answer = read::read(&list);
        let fault = match answer {
            Ok(whole) => {
                features::add(&mut faults, "accepted".to_string());
                findings.expect(whole.words() == list, "an accepted list is written otherwise", index);
                continue;
            }
            Err(fault) => fault,
        };
        features::add(&mut faults, format!("{:02}", fault.number));
        findings.expect(fault.place <= list.len(), "a place outside the list", index);
        let seen = what_the_rust_does(&list);
        features::add(&mut of_the_rust, format!("{:02} {seen}", fault.number));
        if decided_by_prefix(fault) {
            let mut random = Random::new(seed, index);
            for word in list.iter_mut().skip(fault.place + 1) {
                *word = words::word(random.below(5), random.below(70));
            }
            findings.expect(read::read(&list) == Err(fault), "the words after a fault matter", index);
        }
    }
    println!("{count} damaged lists: {}", joined(faults.iter().map(|(number, many)| format!("{number} {many}"))));
    print_tally("the Rust on refused lists, by fault", &of_the_rust);
}

/// What comes of a list that is refused, if its layout can be read.
fn what_the_rust_does(words: &[u32]) -> String {
    let Ok(list) = read::read_layout(words) else { return "has no such design".to_string() };
    let run = rust::run(&list, Way::AsListed, Answer::Unsat, false);
    match run.panic {
        None => "makes calls".to_string(),
        Some(message) if message.starts_with(REFUSED_CALL) => "makes a call that has no record".to_string(),
        Some(_) => "panics".to_string(),
    }
}

fn joined(parts: impl Iterator<Item = String>) -> String {
    parts.collect::<Vec<_>>().join(", ")
}

fn print_tally(title: &str, tally: &Tally) {
    println!("{title}:");
    for (name, many) in tally {
        println!("  {many:7}  {name}");
    }
}

/// All runs; whether nothing was found.
pub fn check(seed: u64, count: u64, size: Size, scope: Scope) -> bool {
    let mut findings = Findings::default();
    check_accepted(seed, count, size, scope, &mut findings);
    check_damaged(seed, count, scope, &mut findings);
    print_tally("findings", &findings.0);
    findings.0.is_empty()
}
