//! The head of a WAVE file alone, for samples that are written elsewhere: document 02's W8 with a size instead of samples.
//! There is no Rust of it, so the model alone answers; its own tests hold it to rows written out by hand, and to the writer.
//! `oracle/README.md` says what stands where in a call and in its answer.
mod call;
mod cases;
mod drawn;
#[cfg(test)]
mod laws;
mod made;
mod numbers;
#[cfg(test)]
mod rows;
mod rules;

use crate::wave_write::writing::Writing;

pub type WaveHead = Writing<call::Call>;
