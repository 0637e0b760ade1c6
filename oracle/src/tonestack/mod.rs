//! The tone stack.
mod cases;
mod rules;
mod rust;

use crate::calls::Called;
pub use rules::Tone;

pub type ToneStack = Called<Tone>;
