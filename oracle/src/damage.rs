//! Damaged design lists from a seed: an accepted list with one or two wounds. Some are accepted all the same.

use crate::generate::{self, Size};
use crate::list::{self, Cell, Control, Dff, List, Net};
use crate::random::Random;
use crate::scope::Scope;
use crate::words::{self, HEAD, INVERTED, LAST, NET, NUMBER, TERM};

/// The damaged list of this index under this seed.
pub fn damage(seed: u64, index: u64, scope: Scope) -> Vec<u32> {
    let mut random = Random::new(!seed, index);
    let size = match random.below(400) {
        0 => Size::Long,
        1..=40 => Size::Medium,
        41..=160 => Size::Tiny,
        _ => Size::Small,
    };
    let mut list = generate::generate(seed, index, size, scope);
    let layout_whole = random.percent(40);
    if layout_whole {
        wound_list(&mut list, &mut random, scope);
    }
    let mut words = list.words();
    if !layout_whole || random.percent(20) {
        for _ in 0..random.between(1, 2) {
            wound_words(&mut words, &mut random);
        }
    }
    words
}

/// A wound that keeps the layout whole: one that only the rules see.
fn wound_list(list: &mut List, random: &mut Random, scope: Scope) {
    let slots = list.slots();
    match random.below(8) {
        // Froms out of order, or one twice.
        0 => list.net_replacements.push((Net::of_slot(random.below(slots.max(1))), Net::ZERO)),
        // A replaced slot that heads another cell, or none.
        1 => {
            let new = Cell::One(list::BUF, vec![Net::ZERO; random.below(3) as usize]);
            list.cell_replacements.push((random.below(slots + 2), new));
        }
        // New cells that must not be, or are too wide.
        2 => {
            let new = [Cell::Void, Cell::Note, Cell::Input(0), Cell::Input(1), Cell::IoBuf(1), Cell::IoBuf(2)];
            list.cell_replacements.insert(0, (0, new[random.below(6) as usize].clone()));
        }
        // A Void of the base in front, which shifts what the others read; one of them may read it on purpose.
        3 => {
            list.base.insert(0, Cell::Void);
            let reader = void_reader(random);
            let wide = reader.output_width();
            match random.below(4) {
                0 => list.base.push(reader),
                1 => list.added.push(reader),
                2 => {
                    list.base.push(Cell::IoBuf(wide));
                    let last = list.base_slots() - wide.max(1);
                    list.cell_replacements.push((last, reader));
                }
                _ => list.net_replacements.push((Net::X, Net::of_slot(0))),
            }
        }
        // Cells without width that need one, and an update past its value's end.
        4 | 5 => {
            let n = random.below(3) as usize;
            // An unsigned division needs no width.
            let divisions = [list::UDIV, list::SDIVTRUNC, list::SMODTRUNC];
            let op = random.pick(if scope.divisions { &divisions } else { &[list::EQ, list::ULT, list::SLT] });
            let cell = match random.below(3) {
                0 => Cell::Two(op, vec![], vec![]),
                1 => Cell::Shift { op: list::SSHR, value: vec![], amount: vec![Net::ONE; n], stride: 1 },
                _ => Cell::Assign {
                    value: vec![Net::X; n],
                    enable: Net::ONE,
                    update: vec![Net::ZERO; random.below(3) as usize],
                    offset: random.pick(&[0, 1, 2, 3, LAST]),
                },
            };
            let at = random.below(list.added.len() as u32 + 1) as usize;
            list.added.insert(at, cell);
        }
        // A pattern, clear or reset word that is no constant.
        6 => {
            let slot = vec![Net::ONE, Net::of_slot(random.below(slots + 3))];
            let one = vec![Net::ONE; 2];
            let constant = Control { net: Net::ONE, inverted: false };
            let (clear_value, reset_value) =
                if random.percent(50) { (slot.clone(), one.clone()) } else { (one.clone(), slot.clone()) };
            list.added.push(match random.below(2) {
                0 => Cell::Match { value: one.clone(), enable: Net::ONE, patterns: vec![vec![one, slot]] },
                _ => Cell::Dff(Dff {
                    reset_over_enable: true,
                    clock: constant,
                    clear: constant,
                    reset: constant,
                    enable: constant,
                    data: one,
                    clear_value,
                    reset_value,
                }),
            });
        }
        // Notes for Voids and Voids for Notes.
        _ => {
            for cell in &mut list.base {
                match cell {
                    Cell::Void => *cell = Cell::Note,
                    Cell::Note => *cell = Cell::Void,
                    _ => (),
                }
            }
        }
    }
}

/// A cell that reads slot 0.
fn void_reader(random: &mut Random) -> Cell {
    let void = Net::of_slot(0);
    let control = Control { net: void, inverted: random.percent(50) };
    let constant = Control { net: Net::ONE, inverted: false };
    match random.below(5) {
        0 => Cell::One(list::NOT, vec![Net::ONE, void]),
        1 => Cell::Aig(constant, control),
        2 => Cell::Mux(void, vec![], vec![]),
        3 => Cell::Match { value: vec![void], enable: Net::ONE, patterns: vec![vec![vec![Net::X]]] },
        _ => {
            let (clock, enable) = if random.percent(50) { (control, constant) } else { (constant, control) };
            let none = || vec![];
            Cell::Dff(Dff {
                reset_over_enable: false,
                clock,
                clear: constant,
                reset: constant,
                enable,
                data: none(),
                clear_value: none(),
                reset_value: none(),
            })
        }
    }
}

/// A place of the list, the header less often than its length would have it.
fn place(words: &[u32], random: &mut Random) -> usize {
    let place = random.below(words.len() as u32) as usize;
    if place < 4 && random.percent(60) { random.below(words.len() as u32) as usize } else { place }
}

/// A place of a word of this kind, if the list has one.
fn place_of(kind: u32, words: &[u32], random: &mut Random) -> Option<usize> {
    let places = (0..words.len()).filter(|at| words::kind(words[*at]) == kind).collect::<Vec<_>>();
    if places.is_empty() { None } else { Some(random.pick(&places)) }
}

fn wound_words(words: &mut Vec<u32>, random: &mut Random) {
    if words.is_empty() {
        words.push(random.next() as u32);
        return;
    }
    let at = place(words, random);
    match random.below(17) {
        // Another kind, the same payload.
        0 => words[at] = words::word(random.below(8), words::payload(words[at])),
        // The word before or after.
        1 => words[at] = words[at].wrapping_add(1),
        2 => words[at] = words[at].wrapping_sub(1),
        // Any word.
        3 => words[at] = random.next() as u32,
        // A telling word.
        4 => {
            let numbers = [0, 1, 2, 31, 32, 33, 62, 63, 64, 65, 4_095, 4_096, 4_097, LAST];
            words[at] = words::word(random.pick(&[NET, INVERTED, HEAD, NUMBER, TERM]), random.pick(&numbers));
        }
        // The list cut short, or longer.
        5 => words.truncate(at),
        6 => {
            let more = random.between(1, 3);
            words.extend((0..more).map(|_| random.next() as u32));
        }
        7 => {
            let last = words[words.len() - 1];
            words.push(last);
        }
        // A word out, a word in, two words changed round.
        8 => {
            words.remove(at);
        }
        9 => {
            let copied = words[place(words, random)];
            words.insert(at, copied);
        }
        10 => {
            let other = place(words, random);
            words.swap(at, other);
        }
        // A head of another count or operation.
        11 => {
            if let Some(head) = place_of(HEAD, words, random) {
                let count = words::count(words[head]) as u32;
                let count = random.pick(&[count + 1, count.saturating_sub(1), count + 40, 0]);
                let most = LAST / 32;
                words[head] = words::head(words::operation(words[head]), count.min(most) as usize);
            }
        }
        12 => {
            if let Some(head) = place_of(HEAD, words, random) {
                words[head] = words::head(random.below(32), words::count(words[head]));
            }
        }
        // A number at a bound.
        13 => {
            if let Some(number) = place_of(NUMBER, words, random) {
                words[number] = words::number(random.pick(&[0, 1, 2, 32, 33, 63, 64, 65, 4_096, 4_097, LAST]));
            }
        }
        // A net that names another slot, or is inverted.
        14 => {
            if let Some(net) = place_of(NET, words, random) {
                let slots = words::payload(words[0]).saturating_add(words::payload(words[1.min(words.len() - 1)]));
                words[net] = words::word(NET, (2 + random.below(slots.clamp(1, 5_000) + 2)).min(LAST));
            }
        }
        15 => {
            if let Some(net) = place_of(NET, words, random) {
                words[net] = words::word(INVERTED, words::payload(words[net]));
            }
        }
        // The end of the base, or of all slots, moved.
        _ if words.len() >= 2 => {
            let moved = random.between(1, 2);
            let (more, less) = if random.percent(50) { (0, 1) } else { (1, 0) };
            words[more] = words[more].wrapping_add(moved);
            if random.percent(70) {
                words[less] = words[less].wrapping_sub(moved);
            }
        }
        _ => words.clear(),
    }
    // The longest list, and one longer.
    if random.below(3_000) == 0 {
        let length = random.pick(&[16_384, 16_385, 20_000]);
        words.resize(length, words::head(0, 0));
    }
}
