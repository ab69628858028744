//! Stand-in for cell/target.rs: target cells are left out of the comparison, and none is ever made.

use crate::{IoValue, Net, ParamValue, Value, reached};

#[derive(Debug, Clone, PartialEq, Eq, Hash)]
pub struct TargetCell {
    pub kind: String,
    pub params: Vec<ParamValue>,
    pub inputs: Value,
    pub output_len: usize,
    pub ios: IoValue,
}

impl TargetCell {
    pub fn visit(&self, _f: impl FnMut(Net)) {
        reached("cell/target.rs, TargetCell::visit")
    }

    pub fn visit_mut(&mut self, _f: impl FnMut(&mut Net)) {
        reached("cell/target.rs, TargetCell::visit_mut")
    }
}
