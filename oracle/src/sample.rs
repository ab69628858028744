//! The stored sample: few small lists that hold every operation and every kind of replacement several times.

use std::collections::BTreeMap;
use std::fs;
use std::path::Path;

use crate::expect;
use crate::features::{self, features};
use crate::generate::{self, Size};
use crate::list::{self, List, NAMES};
use crate::scope::Scope;
use crate::{damage, notation, read, words};

/// How many lists the sample has, and how many refused ones of each fault go with it: without a division, with one.
const LISTS: usize = 300;
const REFUSED: usize = 23;
const REFUSED_WITH_DIVISION: usize = 5;
/// How many lists it has in the inductive mode, without and with a division.
const INDUCTIVE: usize = 48;
const INDUCTIVE_WITH_DIVISION: usize = 12;
/// The faults of a design list are 1 to 13.
const FAULTS: usize = 13;
/// The longest call list of those that meet a need, and of the others; wide cells open the sample.
const CALL_WORDS: usize = 1_200;
const FEWER_CALL_WORDS: usize = 150;
/// From how many lists the next one is picked.
const CANDIDATES: u64 = 2_000;
/// Where the search for lists that meet a need is given up.
const LAST_CANDIDATE: u64 = 2_000_000;

/// The widths that open the sample, by operation: 17 bits need two numbers in a literal, 64 need four.
const WIDE: [(u32, u32); 16] = [
    (list::NOT, 17),
    (list::OR, 17),
    (list::XOR, 17),
    (list::MUX, 17),
    (list::ADC, 17),
    (list::ADC, 63),
    (list::EQ, 17),
    (list::SLT, 17),
    (list::SHL, 17),
    (list::SSHR, 17),
    (list::XSHR, 63),
    (list::MUL, 17),
    (list::MATCH, 17),
    (list::ASSIGN, 17),
    (list::DFF, 17),
    (list::INPUT, 17),
];

/// What opens the lists of the inductive mode: the smallest joined pair; equal flip-flops of the base, one replaced by
/// the other; both replaced by an added one.
const TWINS: [&str; 3] = [
    "#2 #0 #0 #1, Dff #0 #0 0 0 0 0, Dff #0 #0 0 0 0 0, s0 s1",
    "#4 #0 #0 #1, Input #1, Input #1, Dff #1 #0 s0 0 0 1 s1 X X, Dff #1 #0 s0 0 0 1 s1 X X, s3 s2",
    "#4 #1 #0 #2, Input #1, Input #1, Dff #1 #0 s0 0 0 1 s1 X X, Dff #1 #0 s0 0 0 1 s1 X X, \
     Dff #1 #0 s0 0 0 1 s1 X X, s2 s4, s3 s4",
];

/// A list with its calls and marks.
struct Sampled {
    list: List,
    calls: Vec<u32>,
    marks: Vec<u32>,
}

impl Sampled {
    fn new(list: List, scope: Scope) -> Option<Self> {
        let run = scope.run(&list);
        match run.panic {
            None => Some(Sampled { list, calls: run.record.words, marks: run.record.marks }),
            Some(_) => None,
        }
    }

    /// The lengths of the list, the calls and the marks, then these.
    fn record(&self) -> Vec<u32> {
        let list = self.list.words();
        let mut record = vec![list.len() as u32, self.calls.len() as u32, self.marks.len() as u32];
        record.extend(list);
        record.extend(&self.calls);
        record.extend(&self.marks);
        record
    }
}

/// How often each thing must still be met.
struct Needs(BTreeMap<String, u64>);

impl Needs {
    fn new() -> Self {
        let mut needs = BTreeMap::new();
        // The Rust has no calls for the operations after Note, the divisions.
        for (op, name) in NAMES.iter().enumerate().take(1 + list::NOTE as usize) {
            let op = op as u32;
            needs.insert(format!("cell {name}"), 8);
            if ![list::VOID, list::NOTE].contains(&op) {
                needs.insert(format!("old {name}"), 3);
            }
            if ![list::VOID, list::INPUT, list::NOTE].contains(&op) {
                needs.insert(format!("new {name}"), 8);
            }
        }
        for name in ["Buf", "Mux", "Shl", "Mul", "Match", "Assign", "Dff", "IoBuf", "Input", "new Buf", "new Dff"] {
            needs.insert(format!("empty {name}"), 2);
        }
        needs.insert("replaced by an equal cell".to_string(), 8);
        needs.insert("replaced by another".to_string(), 8);
        for pair in ["passed over", "asserted", "joined and obliged", "obliged"] {
            needs.insert(format!("net {pair}"), 8);
        }
        // A Dff's net replaced by an added Void's is where the Rust traps.
        for from in ["constant", "base Void", "added Void", "base Dff", "added Dff", "base cell", "added cell"] {
            for to in ["constant", "added Void", "base Dff", "added Dff", "base cell", "added cell"] {
                if !(from.ends_with("Dff") && to == "added Void") {
                    needs.insert(format!("pair {from} by {to}"), 2);
                }
            }
            needs.insert(format!("pair {from} by empty cell"), 1);
            needs.insert(format!("pair {from} by empty Dff"), 1);
        }
        for to in ["constant", "base cell", "base Dff", "empty Dff"] {
            needs.insert(format!("pair empty cell by {to}"), 1);
            needs.insert(format!("pair empty Dff by {to}"), 1);
        }
        for way in ["0", "1", "X", "slot", "!0", "!1", "!X", "!slot"] {
            for control in ["Aig first", "Aig second", "Dff clock", "Dff clear", "Dff reset", "Dff enable"] {
                needs.insert(format!("{control} {way}"), 2);
            }
        }
        for shift in ["Shl", "UShr", "SShr", "XShr"] {
            for stride in ["stride 0", "stride 1", "stride small", "stride large", "m 0", "m 1", "m 2"] {
                needs.insert(format!("{shift} {stride}"), 2);
            }
        }
        for part in ["Match n 0", "Match alternates 0", "Match alternates 2", "Adc n 0"] {
            needs.insert(part.to_string(), 4);
        }
        for part in
            ["Assign updates nothing", "Assign updates all", "Assign updates a part", "Dff flag 0", "Dff flag 1"]
        {
            needs.insert(part.to_string(), 4);
        }
        Needs(needs)
    }

    /// What the lists of the inductive mode must hold beside divisions.
    fn of_twins() -> Self {
        let mut needs = BTreeMap::new();
        for from in ["base Dff", "added Dff", "empty Dff"] {
            for to in ["base Dff", "added Dff", "empty Dff"] {
                let empty = from == "empty Dff" || to == "empty Dff";
                needs.insert(format!("pair {from} by {to}"), if empty { 2 } else { 10 });
            }
            for to in ["constant", "base cell", "added cell"] {
                needs.insert(format!("pair {from} by {to}"), 1);
                needs.insert(format!("pair {to} by {from}"), 1);
            }
            needs.insert(format!("pair base Void by {from}"), 1);
        }
        needs.insert("pair equal nets".to_string(), 2);
        for joined in features::JOINED {
            needs.insert(joined.to_string(), 5);
        }
        Needs(needs)
    }

    /// How many needs a list would meet.
    fn gain(&self, list: &List) -> u64 {
        let mut met = BTreeMap::new();
        features(list).into_iter().for_each(|name| *met.entry(name).or_default() += 1);
        met.iter().map(|(name, many): (_, &u64)| self.0.get(name).copied().unwrap_or(0).min(*many)).sum()
    }

    fn meet(&mut self, list: &List) {
        for name in features(list) {
            if let Some(need) = self.0.get_mut(&name) {
                *need = need.saturating_sub(1);
            }
        }
    }

    fn open(&self) -> Vec<String> {
        self.0.iter().filter(|(_, need)| **need > 0).map(|(name, need)| format!("{name} ({need})")).collect()
    }
}

/// The accepted lists of the sample, in the ported mode and without divisions.
fn accepted(seed: u64) -> (Vec<Sampled>, Needs) {
    let mut needs = Needs::new();
    let mut sample = vec![];
    let scope = Scope::default();
    for (index, (op, n)) in WIDE.iter().enumerate() {
        let list = generate::single(seed, index as u64, *op, *n);
        needs.meet(&list);
        sample.extend(Sampled::new(list, scope));
    }
    fill(&mut sample, LISTS, &mut needs, seed, scope);
    (sample, needs)
}

/// Those in the inductive mode: without divisions, then with.
fn inductive(seed: u64) -> (Vec<Sampled>, Needs) {
    let mut needs = Needs::of_twins();
    let mut sample = vec![];
    for text in TWINS {
        let list = notation::parse(text).ok().and_then(|words| read::read(&words).ok()).expect("an accepted list");
        needs.meet(&list);
        sample.extend(Sampled::new(list, Scope { divisions: false, inductive: true }));
    }
    fill(&mut sample, INDUCTIVE, &mut needs, seed, Scope { divisions: false, inductive: true });
    needs.0.insert(features::BESIDE_DIVISION.to_string(), INDUCTIVE_WITH_DIVISION as u64);
    let most = INDUCTIVE + INDUCTIVE_WITH_DIVISION;
    fill(&mut sample, most, &mut needs, seed, Scope { divisions: true, inductive: true });
    (sample, needs)
}

/// Draws tiny lists until there are so many.
fn fill(sample: &mut Vec<Sampled>, lists: usize, needs: &mut Needs, seed: u64, scope: Scope) {
    let mut index = 0;
    while sample.len() < lists && index < LAST_CANDIDATE {
        // The candidate that meets the most needs for its length; once all are met, the first that will do.
        let mut best: Option<(u64, Sampled)> = None;
        let met = needs.open().is_empty();
        let (candidates, most_words) = if met { (1, FEWER_CALL_WORDS) } else { (CANDIDATES, CALL_WORDS) };
        for _ in 0..candidates {
            let list = generate::generate(seed, index, Size::Tiny, scope);
            index += 1;
            let gain = 1_000 * needs.gain(&list);
            if !met && gain == 0 || sample.iter().any(|before: &Sampled| before.list == list) {
                continue;
            }
            let Some(next) = Sampled::new(list, scope) else { continue };
            let score = gain / (next.calls.len() as u64 + 60);
            if next.calls.len() <= most_words && best.as_ref().is_none_or(|(most, _)| score > *most) {
                best = Some((score, next));
            }
        }
        if let Some((_, next)) = best {
            needs.meet(&next.list);
            sample.push(next);
        }
    }
}

/// Whether a head of a division stands in a list.
fn names_division(list: &[u32]) -> bool {
    let divides = |word: &u32| matches!(words::operation(*word), list::UDIV..=list::SMODTRUNC);
    list.iter().any(|word| words::kind(*word) == words::HEAD && divides(word))
}

/// Refused lists, so many of each fault; those that name a division, or those that do not.
fn refused_among(seed: u64, scope: Scope, wanted: usize) -> Vec<(Vec<u32>, read::Fault)> {
    let mut of_each: BTreeMap<u32, usize> = BTreeMap::new();
    let mut sample: Vec<(Vec<u32>, read::Fault)> = vec![];
    for index in 0.. {
        let list = damage::damage(seed, index, scope);
        let Err(fault) = read::read(&list) else { continue };
        if list.len() > 60 || names_division(&list) != scope.divisions {
            continue;
        }
        let many = of_each.entry(fault.number).or_default();
        if *many < wanted && sample.iter().all(|(before, _)| *before != list) {
            *many += 1;
            sample.push((list, fault));
        }
        if sample.len() == wanted * FAULTS {
            break;
        }
    }
    sample
}

/// Refused lists, each fault as often as the others.
fn refused(seed: u64) -> Vec<(Vec<u32>, read::Fault)> {
    let mut sample = refused_among(seed, Scope::default(), REFUSED);
    sample.extend(refused_among(seed, Scope { divisions: true, inductive: false }, REFUSED_WITH_DIVISION));
    sample.sort_by_key(|(list, fault)| (fault.number, list.len()));
    sample
}

fn write(folder: &Path, name: &str, lines: impl Iterator<Item = String>) -> Result<(), String> {
    let text = lines.map(|line| line + "\n").collect::<String>();
    fs::write(folder.join(name), text).map_err(|error| format!("{name}: {error}"))
}

/// Writes the sample's files; whether every need was met.
pub fn sample(seed: u64, folder: &Path) -> Result<bool, String> {
    let (accepted, needs) = accepted(seed);
    let (inductive, of_twins) = inductive(seed);
    for (name, sample) in [("calls", &accepted), ("inductive", &inductive)] {
        write(folder, &format!("{name}.txt"), sample.iter().map(|one| words::to_line(&one.record())))?;
        write(folder, &format!("{name}-lists.txt"), sample.iter().map(|one| notation::show(&one.list.words())))?;
    }
    let refused = refused(seed);
    let record = |list: &[u32], fault: &read::Fault| {
        let mut record = vec![list.len() as u32, fault.number, fault.place as u32];
        record.extend(list);
        words::to_line(&record)
    };
    write(folder, "refused.txt", refused.iter().map(|(list, fault)| record(list, fault)))?;
    let told = |list: &[u32]| format!("{} | {}", notation::show(list), expect::by_the_rules(list));
    write(folder, "refused-lists.txt", refused.iter().map(|(list, _)| told(list)))?;
    let call_words = accepted.iter().map(|one| one.calls.len()).sum::<usize>();
    println!("{} accepted lists with {call_words} call words, {} refused", accepted.len(), refused.len());
    let open = [needs.open(), of_twins.open()].concat();
    open.iter().for_each(|need| println!("not met: {need}"));
    let mut met = features::Tally::new();
    accepted.iter().flat_map(|one| features(&one.list)).for_each(|name| features::add(&mut met, name));
    for kind in ["cell ", "new ", "replaced by ", "net ", "pair "] {
        let some = met.iter().filter(|(name, _)| name.starts_with(kind));
        println!(
            "{kind}: {}",
            some.map(|(name, many)| format!("{} {many}", &name[kind.len()..])).collect::<Vec<_>>().join(", ")
        );
    }
    let call_words = inductive.iter().map(|one| one.calls.len()).sum::<usize>();
    println!("{} lists with {call_words} call words in the inductive mode", inductive.len());
    let mut met = features::Tally::new();
    inductive.iter().flat_map(|one| features(&one.list)).for_each(|name| features::add(&mut met, name));
    for (name, many) in met.iter().filter(|(name, _)| name.starts_with("joined") || name.contains("Dff by")) {
        println!("{many:7}  {name}");
    }
    Ok(open.is_empty())
}
