//! Stand-in for print.rs: text is written only when a solver has answered sat, into the message of the panic.

use std::fmt::{Display, Formatter, Result};

use crate::{Cell, Design, Net, Value, metadata::MetaItemIndex, reached};

impl Design {
    pub(crate) fn write_string(_f: &mut Formatter, _string: &str) -> Result {
        reached("print.rs, write_string")
    }

    pub(crate) fn write_cell(
        &self,
        _f: &mut Formatter,
        _prefix: &str,
        _index: usize,
        _cell: &Cell,
        _metadata: MetaItemIndex,
    ) -> Result {
        reached("print.rs, write_cell")
    }

    pub fn display_net(&self, _net: Net) -> impl Display {
        reached("print.rs, display_net");
        #[allow(unreachable_code)]
        ""
    }

    pub fn display_value(&self, _value: &Value) -> impl Display {
        reached("print.rs, display_value");
        #[allow(unreachable_code)]
        ""
    }
}
