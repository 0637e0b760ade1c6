//! Document 01's program over the gate: signed 16-bit samples, the lower byte first, in and out.
//!
//! The samples between are the Rust gate's, with the program's settings; the 16-bit rule is written
//! here (`sample.rs`). A list is the bytes of the program's standard input.
mod cases;
pub(crate) mod sample;

use crate::{
    random::Random,
    replay::{Counts, Replay},
};
use rustortion_core::amp::stages::{Stage, noise_gate::NoiseGateStage};

/// 48,000 Hz, threshold -12 dB with factor 0.25, ratio 2, hold 1/16 ms, all smoothing numbers 0.
fn gate() -> NoiseGateStage {
    let mut gate = NoiseGateStage::new(-12.0, 2.0, 1.0, 0.0625, 100.0, 48_000.0);
    gate.lend_threshold(0.25);
    gate.lend_smoothing(0.0, 0.0);
    gate.lend_follower(0.0, 0.0);
    gate
}

/// The samples of a list; a last odd byte is in none.
fn samples(bytes: &[u8]) -> impl Iterator<Item = i16> {
    bytes
        .chunks_exact(2)
        .map(|pair| i16::from_le_bytes([pair[0], pair[1]]))
}

fn aimed_open(bytes: &[u8]) -> u64 {
    let mut gate = gate();
    let mut open = 0;
    for n in samples(bytes) {
        gate.process(sample::read(n));
        open += u64::from(gate.aimed_open());
    }
    open
}

pub struct Program;

impl Replay for Program {
    fn stored(&self) -> Vec<u8> {
        cases::stored()
    }

    fn generated(&self, random: &mut Random, cases: u64) -> Vec<u8> {
        cases::generated(random, cases)
    }

    fn answers(&self, calls: &[u8]) -> Result<Vec<u8>, String> {
        let mut gate = gate();
        let mut answers = Vec::with_capacity(calls.len());
        for n in samples(calls) {
            let y = gate.process(sample::read(n));
            answers.extend(sample::written(y)?.to_le_bytes());
        }
        Ok(answers)
    }

    fn counts(&self, calls: &[u8]) -> Counts {
        Counts::from([
            ("samples", calls.len() as u64 / 2),
            ("of them aimed open", aimed_open(calls)),
            ("odd bytes", calls.len() as u64 % 2),
        ])
    }

    fn said(&self, calls: &[u8]) -> Option<String> {
        let (count, open) = (samples(calls).count(), aimed_open(calls));
        Some(format!("gate: {count} samples, {open} aimed open\n"))
    }

    fn told(&self, calls: &[u8], answer_byte: usize) -> String {
        let index = answer_byte / 2;
        let around = samples(calls).skip(index.saturating_sub(4)).take(5);
        format!(
            "sample {index}, the last of {:?}",
            around.collect::<Vec<i16>>()
        )
    }
}
