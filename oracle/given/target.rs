//! Stand-in for target.rs: no type implements `Target` here and every design has the target `None`.

use std::{collections::BTreeMap, fmt::Debug};

use crate::{Design, ParamValue, TargetCell, reached};

#[derive(Debug, Clone, Copy, PartialEq, Eq)]
pub enum TargetCellPurity {
    Pure,
    HasState,
    HasEffects,
}

#[derive(Debug, Clone)]
pub struct TargetParamKind;

#[derive(Debug, Clone)]
pub struct TargetParam {
    pub kind: TargetParamKind,
}

#[derive(Debug, Clone)]
pub struct TargetPrototype {
    pub purity: TargetCellPurity,
    pub params: Vec<TargetParam>,
    pub input_len: usize,
    pub output_len: usize,
    pub io_len: usize,
}

pub trait Target: Debug {
    fn name(&self) -> &str;
    fn options(&self) -> BTreeMap<String, String>;
    fn prototype(&self, kind: &str) -> Option<&TargetPrototype>;
    fn validate(&self, design: &Design, cell: &TargetCell);
}

impl TargetParamKind {
    pub fn is_valid(&self, _value: &ParamValue) -> bool {
        reached("target.rs, TargetParamKind::is_valid")
    }
}
