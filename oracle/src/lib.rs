//! The oracle: what the stages answer, from the Rust as it stands and from document 01.
//!
//! Each stage that has lists has a module here, with a model written from document 01, the Rust stage with
//! worked numbers lent, and a generator of call lists; [`stages::named`] finds it. The leveller's model is
//! written from document 02. So are those of the reader and the writer of WAVE files, which have no Rust.
pub mod bits;
pub mod calls;
pub mod clipper;
pub mod common;
pub mod compare;
pub mod eq;
pub mod exact;
pub mod float;
pub mod gap;
pub mod gate;
pub mod leveller;
pub mod limits;
pub mod numbers;
pub mod power;
pub mod program;
pub mod random;
pub mod replay;
pub mod saturator;
pub mod session;
pub mod shapes;
pub mod signals;
pub mod stages;
pub mod tonestack;
pub mod wave;
pub mod wave_head;
pub mod wave_write;
