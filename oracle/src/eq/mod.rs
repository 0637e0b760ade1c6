//! The equaliser.
mod cases;
mod names;
mod rules;
mod rust;

use crate::calls::Called;
pub use rules::Equaliser;

pub type Eq = Called<Equaliser>;
