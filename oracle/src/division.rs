//! The calls of a list with divisions. The Rust has none for a division; document 02 gives its rule and
//! docs/DIVISIONS.md its calls, by what they add to those of Mul. So the Rust is run with a Mul in place of each
//! division, and its calls are changed accordingly.

use crate::changed::{self, Changed};
use crate::list::{self, Cell, List};
use crate::record::{AND, BVMUL, BVUDIV, EQUAL, ITE, LITERAL, NOT};
use crate::words;

/// The list with a Mul in place of each division.
pub fn multiplied(list: &List) -> List {
    let mut list = list.clone();
    let new = list.cell_replacements.iter_mut().map(|(_, new)| new);
    for cell in list.base.iter_mut().chain(&mut list.added).chain(new) {
        if let Cell::Two(op @ list::UDIV..=list::SMODTRUNC, ..) = cell {
            *op = list::MUL;
        }
    }
    list
}

/// The operations of the Muls and divisions that have a width, in the order in which their calls are made.
fn products(list: &List) -> Vec<u32> {
    let (mut found, mut slot) = (vec![], 0);
    let mut replacements = list.cell_replacements.iter().peekable();
    for cell in list.base.iter().chain(&list.added) {
        let new = replacements.next_if(|(at, _)| *at == slot).map(|(_, new)| new);
        for one in [Some(cell), new].into_iter().flatten().filter(|one| one.output_width() > 0) {
            if one.operation() == list::MUL || one.divides() {
                found.push(one.operation());
            }
        }
        slot += cell.slots();
    }
    found
}

/// Whether the records begin with the last calls of a Mul: no X, zeros, ones, x and y.
fn ends_mul(records: &[&[u32]]) -> bool {
    let operations = records.iter().take(5).map(|record| words::operation(record[0]));
    operations.eq([AND, LITERAL, LITERAL, ITE, BVMUL])
}

impl Changed {
    /// After a Mul's "no X": is the divisor's y zero, is it not, and both; the last takes the first's place.
    fn guard(&mut self, zeros: &[u32], divisor: u32) {
        let no_x = changed::reference(self.terms - 1);
        let literal = self.term(LITERAL, &zeros[1..]);
        let by_zero = self.term(EQUAL, &[self.argument(divisor), literal]);
        let not_by_zero = self.term(NOT, &[by_zero]);
        self.term(AND, &[no_x, not_by_zero]);
        *self.numbers.last_mut().expect("an and before it") = self.terms - 1;
    }
}

/// The calls of a list, from those that the Rust makes with Muls in place of its divisions.
pub fn changed(list: &List, calls: &[u32]) -> Vec<u32> {
    let records = changed::records(calls);
    let mut products = products(list).into_iter();
    let mut made = Changed::default();
    let mut division = None;
    for (at, record) in records.iter().enumerate() {
        let operation = words::operation(record[0]);
        made.copy(if operation == BVMUL { division.take().unwrap_or(BVMUL) } else { operation }, &record[1..]);
        if ends_mul(&records[at..]) {
            let op = products.next().expect("a cell for each Mul of the calls");
            if op != list::MUL {
                made.guard(records[at + 1], records[at + 4][2]);
                division = Some(BVUDIV + op - list::UDIV);
            }
        }
    }
    assert!(products.next().is_none(), "calls for each cell");
    made.words
}
