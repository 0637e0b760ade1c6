//! The leveller.
mod borders;
mod cases;
#[cfg(test)]
mod needs;
mod refusals;
#[cfg(test)]
mod rows;
mod rules;
mod rust;

use crate::calls::Called;
pub use rules::{Leveller, gain};

pub type LevellerStage = Called<Leveller>;
