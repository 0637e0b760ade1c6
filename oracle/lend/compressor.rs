// Lends to `compressor.rs`: the two factors, the follower's numbers and its level, read and set. The gain is a
// local of `process`, worked out by `powf`: it is lent there (`src/power.rs`).
use crate::amp::stages::common::FollowerNumbers;

/// The linear factors, which the Rust works out from decibels.
#[derive(Clone, Copy, Debug, PartialEq)]
pub struct CompressorFactors {
    pub threshold: f32,
    pub makeup: f32,
}

impl CompressorStage {
    pub fn lend_factors(&mut self, factors: CompressorFactors) {
        self.threshold = factors.threshold;
        self.makeup = factors.makeup;
    }

    pub fn factors(&self) -> CompressorFactors {
        CompressorFactors {
            threshold: self.threshold,
            makeup: self.makeup,
        }
    }

    pub fn lend_follower(&mut self, numbers: FollowerNumbers) {
        self.envelope = EnvelopeFollower::lent(numbers);
    }

    pub fn follower(&self) -> FollowerNumbers {
        self.envelope.numbers()
    }
}
