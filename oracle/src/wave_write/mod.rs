//! The writer of WAVE files: document 02's W8. There is no Rust of it, so the model alone answers; its own tests hold it to
//! rows written out by hand, to laws, and to files that other programs made.
//! `oracle/README.md` says what stands where in a call and in its answer.
pub(crate) mod before;
pub(crate) mod call;
mod cases;
pub(crate) mod drawn;
#[cfg(test)]
mod laws;
pub(crate) mod made;
pub(crate) mod numbers;
mod refusals;
#[cfg(test)]
mod rows;
pub(crate) mod rules;
pub(crate) mod writing;

pub type WaveWrite = writing::Writing<call::Call>;
