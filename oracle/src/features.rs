//! What a list holds that a comparison should have met: operations in each of their places, and kinds of pairs.

use std::collections::BTreeMap;

use crate::list::{Cell, Control, List, NAMES, Net};
use crate::twins;

/// How often each thing was met, by its name.
pub type Tally = BTreeMap<String, u64>;

pub fn add(tally: &mut Tally, name: String) {
    *tally.entry(name).or_default() += 1;
}

/// The cell that a net belongs to, and whether it is of the base.
pub fn cell_of(list: &List, net: Net) -> Option<(&Cell, bool)> {
    let slot = net.slot()?;
    let mut first = 0;
    let base = list.base.iter().map(|cell| (cell, true));
    for (cell, in_base) in base.chain(list.added.iter().map(|cell| (cell, false))) {
        if slot < first + cell.slots() {
            return Some((cell, in_base));
        }
        first += cell.slots();
    }
    None
}

/// What a net belongs to, in words; empty is a cell of output width 0.
fn belongs(list: &List, net: Net) -> &'static str {
    match cell_of(list, net) {
        None => "constant",
        Some((Cell::Void, true)) => "base Void",
        Some((Cell::Void, false)) => "added Void",
        Some((Cell::Dff(dff), _)) if dff.data.is_empty() => "empty Dff",
        Some((Cell::Dff(_), true)) => "base Dff",
        Some((Cell::Dff(_), false)) => "added Dff",
        Some((cell, _)) if cell.output_width() == 0 => "empty cell",
        Some((_, true)) => "base cell",
        Some((_, false)) => "added cell",
    }
}

/// The pair's kind: what is replaced by what.
fn pair(list: &List, from: Net, to: Net) -> String {
    if from == to { "equal nets".to_string() } else { format!("{} by {}", belongs(list, from), belongs(list, to)) }
}

/// What comes of a pair of this kind.
fn calls_of_pair(kind: &str) -> &'static str {
    match kind.split_once(" by ") {
        None => "passed over",
        Some((from, _)) if from.ends_with("Void") => "asserted",
        Some((from, to)) if from.ends_with("Dff") && to.ends_with("Dff") => "joined and obliged",
        Some(_) => "obliged",
    }
}

/// How a control is written: a constant, a slot, inverted or not.
fn control(control: &Control) -> String {
    let net = match control.net {
        Net::ZERO => "0",
        Net::ONE => "1",
        Net::X => "X",
        _ => "slot",
    };
    format!("{}{net}", if control.inverted { "!" } else { "" })
}

/// What in a cell, beside its operation, decides which calls are made. Empty cells make none.
fn details(cell: &Cell) -> Vec<String> {
    let name = NAMES[cell.operation() as usize];
    let of = |parts: &[String]| parts.iter().map(|part| format!("{name} {part}")).collect::<Vec<_>>();
    match cell {
        Cell::Void | Cell::Note => vec![],
        Cell::Two(_, a, _) | Cell::Adc(a, ..) => of(&[format!("n {}", a.len())]),
        Cell::Aig(a, b) => of(&[format!("first {}", control(a)), format!("second {}", control(b))]),
        Cell::Shift { value, amount, stride, .. } => {
            let stride = match stride {
                0 | 1 => stride.to_string(),
                2..100 => "small".to_string(),
                _ => "large".to_string(),
            };
            of(&[format!("n {}", value.len()), format!("m {}", amount.len()), format!("stride {stride}")])
        }
        Cell::Match { value, patterns, .. } => {
            let mut parts = vec![format!("n {}", value.len()), format!("k {}", patterns.len())];
            parts.extend(patterns.iter().map(|all| format!("alternates {}", all.len())));
            of(&parts)
        }
        Cell::Assign { value, update, .. } => {
            let part = match update.len() {
                0 => "nothing",
                all if all == value.len() => "all",
                _ => "a part",
            };
            of(&[format!("n {}", value.len()), format!("updates {part}")])
        }
        Cell::Dff(dff) => of(&[
            format!("n {}", dff.data.len()),
            format!("flag {}", dff.reset_over_enable as u32),
            format!("clock {}", control(&dff.clock)),
            format!("clear {}", control(&dff.clear)),
            format!("reset {}", control(&dff.reset)),
            format!("enable {}", control(&dff.enable)),
        ]),
        cell => of(&[format!("n {}", cell.output_width())]),
    }
}

/// Everything of note in a list.
pub fn features(list: &List) -> Vec<String> {
    let mut met = vec![];
    for (place, cells) in [("base", &list.base), ("added", &list.added)] {
        for cell in cells {
            let name = NAMES[cell.operation() as usize];
            met.push(format!("{place} {name}"));
            if cell.output_width() > 0 || matches!(cell, Cell::Void | Cell::Note) {
                met.push(format!("cell {name}"));
                met.extend(details(cell));
            } else {
                met.push(format!("empty {name}"));
            }
        }
    }
    for (slot, new) in &list.cell_replacements {
        if new.output_width() == 0 {
            met.push(format!("empty new {}", NAMES[new.operation() as usize]));
            continue;
        }
        met.push(format!("new {}", NAMES[new.operation() as usize]));
        met.extend(details(new));
        let old = cell_of(list, Net::of_slot(*slot)).expect("a replaced cell").0;
        met.push(format!("replaced by {}", if old == new { "an equal cell" } else { "another" }));
        met.push(format!("old {}", NAMES[old.operation() as usize]));
    }
    for (from, to) in &list.net_replacements {
        let kind = pair(list, *from, *to);
        met.push(format!("net {}", calls_of_pair(&kind)));
        met.push(format!("pair {kind}"));
    }
    met.extend(of_joined(list));
    met
}

/// A joined pair in a list with a division.
pub const BESIDE_DIVISION: &str = "joined beside a division";

/// What else may stand in a list with joined flip-flops.
#[rustfmt::skip]
pub const JOINED: [&str; 8] = [
    "joined twice, on and on", "joined twice, to one", "joined twice, to and fro", "joined, one's cell replaced",
    "joined, the new net read later", "joined beside a Void's pair", "joined beside an obliged pair", "joined nowhere",
];

/// Which of these stand in a list.
fn of_joined(list: &List) -> Vec<String> {
    let pairs = twins::joined(list);
    if pairs.is_empty() {
        return vec![JOINED[7].to_string()];
    }
    let in_cell = |slot: u32, first: u32, cell: &Cell| (first..first + cell.slots()).contains(&slot);
    let kinds = list.net_replacements.iter().map(|(from, to)| pair(list, *from, *to)).collect::<Vec<_>>();
    let some = |calls: &str| kinds.iter().any(|kind| calls_of_pair(kind) == calls);
    let (mut on, mut to_one, mut to_and_fro, mut replaced, mut later) = (false, false, false, false, false);
    for (from, to, _) in &pairs {
        on |= pairs.iter().any(|(next, end, _)| next == to && end != from);
        to_one |= pairs.iter().any(|(other, same, _)| other != from && same == to);
        to_and_fro |= pairs.iter().any(|(next, end, _)| next == to && end == from);
        let of_either = |(at, new): &(u32, Cell)| in_cell(*from, *at, new) || in_cell(*to, *at, new);
        replaced |= list.cell_replacements.iter().any(|one| one.1.output_width() > 0 && of_either(one));
        let read = |pair: &&(Net, Net)| pair.1.slot() == Some(*to) && pair.0.slot() > Some(*from);
        later |= list.net_replacements.iter().any(|pair| read(&pair) && twins::joins(list, pair.0, pair.1).is_none());
    }
    let here = [on, to_one, to_and_fro, replaced, later, some("asserted"), some("obliged")];
    let mut met =
        JOINED.iter().zip(here).filter(|(_, here)| *here).map(|(name, _)| name.to_string()).collect::<Vec<_>>();
    if list.cells().any(|cell| cell.divides() && cell.output_width() > 0) {
        met.push(BESIDE_DIVISION.to_string());
    }
    met
}

/// Whether a Dff's net is replaced by an added Void's.
pub fn dff_by_void(list: &List) -> bool {
    let by_void = |(from, to): &(Net, Net)| pair(list, *from, *to).ends_with("Dff by added Void");
    list.net_replacements.iter().any(by_void)
}

/// Whether the Rust is known to trap on the list: by such a pair, or by a division that has a width.
pub fn known_trap(list: &List) -> bool {
    dff_by_void(list) || list.cells().any(|cell| cell.divides() && cell.output_width() > 0)
}
