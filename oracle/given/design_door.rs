//! The way into a `Design` for the comparison: cells, added cells and replacements are put where `Design::verify`
//! looks for them, as they stand in the list, without the cache of `add_cell` and the tests of `CellRef::replace`.

use super::{AnnotatedCell, Design};
use crate::cell::CellRepr;
use crate::{Cell, Net};

/// The net of a slot.
pub fn net(slot: usize) -> Net {
    Net::from_cell_index(slot)
}

/// A cell of a list, or `None` for a Void.
pub type Listed = Option<Cell>;

/// The slots that a cell takes: itself, and a `Skip` for each further bit of its output.
fn slots(first: usize, cell: Listed) -> Vec<AnnotatedCell> {
    let Some(cell) = cell else { return vec![CellRepr::Void.into()] };
    let width = cell.output_len();
    let mut slots = vec![CellRepr::from(cell).into()];
    slots.extend((1..width).map(|_| CellRepr::Skip(first as u32).into()));
    slots
}

/// Puts a cell of the base behind those that are there.
pub fn push_base(design: &mut Design, cell: Listed) {
    let slots = slots(design.cells.len(), cell);
    design.cells.extend(slots);
}

/// Puts an added cell behind those that are there.
pub fn push_added(design: &mut Design, cell: Listed) {
    let changes = design.changes.get_mut();
    let slots = slots(design.cells.len() + changes.added_cells.len(), cell);
    changes.added_cells.extend(slots);
}

/// Replaces the cell that heads a slot.
pub fn replace_cell(design: &mut Design, slot: usize, cell: Listed) {
    let new = cell.map_or(CellRepr::Void, CellRepr::from).into();
    design.changes.get_mut().replaced_cells.insert(slot, new);
}
