//! Stand-in for param.rs: parameters belong to instances, target cells and metadata, which are left out.

use std::fmt::{Display, Formatter, Result};

use crate::reached;

#[derive(Debug, Clone, PartialEq, Eq, PartialOrd, Ord, Hash)]
pub enum ParamValue {
    String(String),
}

impl Display for ParamValue {
    fn fmt(&self, _f: &mut Formatter) -> Result {
        reached("param.rs, ParamValue::fmt")
    }
}
