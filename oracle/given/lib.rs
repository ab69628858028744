//! Stand-in for lib.rs: the modules of the crate and the names that they take from its root.
//!
//! design.rs is included into a module written here, so that `door`, a child of that module, may fill the private
//! fields of `Design`. Everything else is a module of its own, as in the original.

pub mod cell;
pub mod io;
pub mod logic;
pub mod metadata;
pub mod param;
pub mod smt;
pub mod target;
pub mod value;
mod print;

pub mod design {
    include!("design.rs");

    pub mod door;
}

pub use cell::{
    AssignCell, Cell, FlipFlop, Instance, IoBuffer, MatchCell, Memory, MemoryPortRelation, MemoryReadFlipFlop,
    MemoryReadPort, MemoryWritePort, TargetCell,
};
pub use design::{CellRef, Design};
pub use io::{IoNet, IoValue};
pub use logic::{Const, Trit};
pub use metadata::{MetaItem, MetaItemRef, MetaStringRef, SourcePosition};
pub use param::ParamValue;
pub use smt::{SmtBuilder, SmtEngine, SmtExample, SmtResponse};
pub use target::{Target, TargetCellPurity, TargetParamKind, TargetPrototype};
pub use value::{ControlNet, Net, Value};

/// How the message of a stand-in that should never be reached begins.
pub const REACHED: &str = "stand-in reached: ";

/// What every stand-in that a comparison must not depend on does.
pub(crate) fn reached(what: &str) -> ! {
    panic!("{REACHED}{what}")
}
