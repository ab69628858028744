//! The proved archive beside the Rust: both in one program and on the same lists. Call words, marks, refusals and
//! counts must be equal, and what is not written must stay as it was.

use crate::features::{self, Tally};
use crate::generate::{self, Size};
use crate::list::List;
use crate::read::{self, Fault};
use crate::record::CALLS;
use crate::scope::Scope;
use crate::{damage, port, twins, words};

/// Elements beside a lent slice that must stay as they were, on either side.
const MARGIN: usize = 16;

/// What a slice is filled with before it is lent: no two neighbours alike, no mark and no small number.
trait Filling: Copy + PartialEq {
    fn at(place: usize) -> Self;
}

impl Filling for u8 {
    fn at(place: usize) -> u8 {
        4 + (place * 37 % 251) as u8
    }
}

impl Filling for u32 {
    fn at(place: usize) -> u32 {
        0xa5a5_5a5a ^ (place as u32).wrapping_mul(0x9e37_79b9)
    }
}

impl Filling for u64 {
    fn at(place: usize) -> u64 {
        0xa5a5_5a5a_a5a5_5a5a ^ (place as u64).wrapping_mul(0x9e37_79b9_7f4a_7c15)
    }
}

/// A slice that is lent, in the midst of memory that is not.
struct Lent<T>(Vec<T>);

impl<T: Filling> Lent<T> {
    fn new(room: usize) -> Self {
        Lent((0..room + 2 * MARGIN).map(T::at).collect())
    }

    fn slice(&mut self) -> &mut [T] {
        let end = self.0.len() - MARGIN;
        &mut self.0[MARGIN..end]
    }

    /// Whether the slice begins with these and all else is as it was filled.
    fn holds(&self, written: &[T]) -> bool {
        let end = MARGIN + written.len();
        let filled = |from: usize, to: usize| (from..to).all(|place| self.0[place] == T::at(place));
        self.0[MARGIN..].starts_with(written) && filled(0, MARGIN) && filled(end, self.0.len())
    }
}

/// The packed answer of a refusal.
fn refusal(number: u32, place: usize) -> u64 {
    (number as u64) << 48 | place as u64
}

/// What is expected of an accepted list.
struct Wanted {
    calls: Vec<u32>,
    marks: Vec<u8>,
    counts: Counts,
}

impl Wanted {
    /// The calls of a list in a mode, unless the Rust panics; divisions have theirs.
    fn of(list: &List, inductive: bool) -> Option<Wanted> {
        let run = Scope { divisions: true, inductive }.run(list);
        let counts = Counts::of(&run.record.words);
        let marks = run.record.marks.iter().map(|mark| *mark as u8).collect();
        run.panic.is_none().then_some(Wanted { calls: run.record.words, marks, counts })
    }
}

/// Counts taken from call words, record by record.
#[derive(Default, Clone, Copy)]
struct Counts {
    terms: u64,
    temporaries: u64,
    words: u64,
    asked: bool,
}

impl Counts {
    fn of(calls: &[u32]) -> Counts {
        let mut counts = Counts { words: calls.len() as u64, ..Counts::default() };
        let mut place = 0;
        while place < calls.len() {
            let field = |at: usize| words::payload(calls[place + at]);
            match CALLS[words::operation(calls[place]) as usize] {
                "assert" => (),
                "check" => counts.asked = true,
                call => {
                    counts.terms += 1;
                    // A temporary is one name without suffix or a pair of x and y.
                    if call == "declare" && field(1) == 2 && field(3) < 2 {
                        counts.temporaries += 1;
                    }
                }
            }
            place += 1 + words::count(calls[place]);
        }
        counts
    }

    fn packed(self) -> u64 {
        (self.asked as u64) << 47 | self.words
    }

    fn listed(self) -> [u64; 3] {
        [self.terms, self.temporaries, self.words]
    }
}

/// Modes that there are not.
const NO_MODES: [u32; 4] = [2, 3, 1 << 31, u32::MAX];

/// What was compared, and the differences.
#[derive(Default)]
struct Comparison {
    /// The mode that the entries are given; without it, those that take none.
    mode: Option<u32>,
    met: Tally,
    differences: Tally,
}

impl Comparison {
    fn count(&mut self, name: &str, many: usize) {
        *self.met.entry(name.to_string()).or_default() += many as u64;
    }

    fn expect(&mut self, holds: bool, otherwise: &str, list: &str) {
        if !holds {
            features::add(&mut self.differences, otherwise.to_string());
            let mode = self.mode.map_or(String::new(), |mode| format!(" in mode {mode}"));
            eprintln!("{list}{mode}: {otherwise}");
        }
    }

    /// A run of `verify` with this room, whose answer and what it writes are known.
    fn verify(&mut self, words: &[u32], room: (usize, usize), answer: u64, written: (&[u32], &[u8]), list: &str) {
        let (mut calls, mut recorded) = (Lent::new(room.0), Lent::new(room.1));
        let said = port::verify(self.mode, words, calls.slice(), recorded.slice());
        let refused = answer >> 48 > 0;
        self.expect(said == answer, if refused { "another refusal" } else { "another answer" }, list);
        self.expect(calls.holds(written.0), if refused { "calls written" } else { "other calls" }, list);
        self.expect(recorded.holds(written.1), if refused { "marks written" } else { "other marks" }, list);
        self.count("runs of verify", 1);
        self.count("bytes of slices compared", 4 * calls.0.len() + recorded.0.len());
    }

    /// A run of `counts` with this room.
    fn counts(&mut self, words: &[u32], room: usize, answer: u64, written: &[u64], list: &str) {
        let mut counts = Lent::new(room);
        self.expect(port::counts(self.mode, words, counts.slice()) == answer, "another answer of counts", list);
        self.expect(counts.holds(written), "other counts", list);
        self.count("runs of counts", 1);
    }

    /// An accepted list: with room to spare, exactly full, and with each slice one short.
    fn accepted(&mut self, words: &[u32], wanted: &Wanted, list: &str) {
        let (calls, marks) = (wanted.calls.as_slice(), wanted.marks.as_slice());
        let (room, slots) = (calls.len(), marks.len());
        let answer = wanted.counts.packed();
        self.expect(port::read(words) == slots as u64, "another number of slots", list);
        self.verify(words, (room + 40, slots + 40), answer, (calls, marks), list);
        self.verify(words, (room, slots), answer, (calls, marks), list);
        if room > 0 {
            self.verify(words, (room - 1, slots), refusal(14, room), (&[], &[]), list);
            self.count("call slices one short", 1);
        }
        if slots > 0 {
            self.verify(words, (room, slots - 1), refusal(14, slots), (&[], &[]), list);
            self.count("recorded slices one short", 1);
        }
        if room > 0 && slots > 0 {
            self.verify(words, (room - 1, slots - 1), refusal(14, room), (&[], &[]), list);
        }
        self.counts(words, 3, answer, &wanted.counts.listed(), list);
        self.counts(words, 5, answer, &wanted.counts.listed(), list);
        self.counts(words, 2, refusal(14, 3), &[], list);
    }

    /// A list on which the Rust is known to trap: accepted, and what its calls hold is what is counted.
    fn trapped(&mut self, words: &[u32], slots: usize, list: &str) {
        let mut counts = [0; 3];
        let answer = port::counts(self.mode, words, &mut counts);
        self.expect(answer >> 48 == 0, "a refusal where the Rust traps", list);
        let (mut calls, mut recorded) = (Lent::new(counts[2] as usize), Lent::new(slots));
        let said = port::verify(self.mode, words, calls.slice(), recorded.slice());
        self.expect(said == answer, "another answer", list);
        let made = Counts::of(calls.slice());
        self.expect(made.packed() == answer && made.listed() == counts, "counts of other calls", list);
    }

    /// A refused list: neither slice is written, with room or without.
    fn refused(&mut self, words: &[u32], fault: Fault, list: &str) {
        let answer = refusal(fault.number, fault.place);
        self.expect(port::read(words) == answer, "another refusal of read", list);
        self.verify(words, (200, 200), answer, (&[], &[]), list);
        self.verify(words, (0, 0), answer, (&[], &[]), list);
        self.counts(words, 4, answer, &[], list);
        self.counts(words, 0, answer, &[], list);
    }

    /// Any list in a mode that there is not: refused before it is looked at.
    fn in_no_mode(&mut self, words: &[u32], list: &str) {
        let answer = refusal(23, 0);
        for mode in NO_MODES {
            self.mode = Some(mode);
            self.verify(words, (200, 200), answer, (&[], &[]), list);
            self.verify(words, (0, 0), answer, (&[], &[]), list);
            self.counts(words, 4, answer, &[], list);
            self.counts(words, 0, answer, &[], list);
            self.count("runs in modes that there are not", 4);
        }
    }

    /// A list through the entries without a mode, or through these and those with one, in both modes and in none.
    fn list(&mut self, words: &[u32], read: Result<List, Fault>, scope: Scope, name: &str) {
        self.count("words", words.len());
        let ported: &[Option<u32>] = if scope.inductive { &[None, Some(0)] } else { &[None] };
        let inductive: &[Option<u32>] = if scope.inductive { &[Some(1)] } else { &[] };
        if scope.inductive {
            self.in_no_mode(words, name);
        }
        let list = match read {
            Ok(list) => list,
            Err(fault) => {
                self.count(&format!("refused {:02}", fault.number), 1);
                for mode in [ported, inductive].concat() {
                    self.mode = mode;
                    self.refused(words, fault, name);
                }
                return;
            }
        };
        self.count("accepted", 1);
        let Some(wanted) = Wanted::of(&list, false) else {
            self.expect(features::dff_by_void(&list), "the Rust panicked", name);
            self.count("lists where the Rust traps as known", 1);
            for mode in [ported, inductive].concat() {
                self.mode = mode;
                self.trapped(words, list.slots() as usize, name);
            }
            return;
        };
        for mode in ported {
            self.mode = *mode;
            self.accepted(words, &wanted, name);
        }
        self.count(if wanted.counts.asked { "lists that ask" } else { "lists that ask nothing" }, 1);
        self.count("call words", wanted.calls.len());
        self.count("marks", wanted.marks.len());
        self.count("terms", wanted.counts.terms as usize);
        self.count("temporaries", wanted.counts.temporaries as usize);
        for mode in inductive {
            self.mode = *mode;
            let cut = Wanted::of(&list, true).expect("no other panic");
            self.accepted(words, &cut, name);
            let pairs = twins::joined(&list).len();
            self.count("joined pairs", pairs);
            self.count("lists with joined flip-flops", (pairs > 0) as usize);
            self.count("lists whose calls differ between the modes", (cut.calls != wanted.calls) as usize);
            self.count("lists whose marks differ between the modes", (cut.marks != wanted.marks) as usize);
            self.count("call words in the inductive mode", cut.calls.len());
        }
    }
}

/// So many generated lists of a size and so many damaged ones; whether nothing differs.
pub fn compare(seed: u64, count: u64, size: Size, scope: Scope) -> bool {
    let mut comparison = Comparison::default();
    for index in 0..count {
        let list = generate::generate(seed, index, size, scope);
        comparison.list(&list.words(), Ok(list), scope, &format!("list {index}"));
    }
    for index in 0..count {
        let words = damage::damage(seed, index, scope);
        comparison.list(&words, read::read(&words), scope, &format!("damaged list {index}"));
    }
    println!("{} lists, half of them damaged", 2 * count);
    for (name, many) in &comparison.met {
        println!("  {many:13}  {name}");
    }
    let differences = comparison.differences.values().sum::<u64>();
    println!("{differences} differences");
    for (name, many) in &comparison.differences {
        println!("  {many:13}  {name}");
    }
    differences == 0
}
