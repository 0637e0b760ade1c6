//! The multiband saturator.
mod cases;
mod rules;
mod rust;

use crate::calls::Called;
pub use rules::Saturator;

pub type MultibandSaturator = Called<Saturator>;
