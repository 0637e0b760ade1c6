// Lends to `noise_gate.rs`: the threshold's factor, the smoothing numbers and the follower's, and the
// registers, read and set.
use crate::amp::stages::common::FollowerNumbers;

/// What a sample moves.
#[derive(Clone, Copy, Debug, PartialEq)]
pub struct GateRegisters {
    pub level: f32,
    pub state: f32,
    pub counter: usize,
}

impl NoiseGateStage {
    pub fn lend_threshold(&mut self, factor: f32) {
        self.threshold = factor;
    }

    /// The Rust works both numbers out again when either time is set, so both are lent again.
    pub fn lend_smoothing(&mut self, attack: f32, release: f32) {
        self.attack_coeff = attack;
        self.release_coeff = release;
    }

    pub fn lend_follower(&mut self, attack: f32, release: f32) {
        let level = self.envelope.value();
        self.envelope = EnvelopeFollower::lent(FollowerNumbers {
            attack,
            release,
            level,
        });
    }

    pub fn registers(&self) -> GateRegisters {
        GateRegisters {
            level: self.envelope.value(),
            state: self.gate_state,
            counter: self.hold_counter,
        }
    }

    pub fn load(&mut self, registers: GateRegisters) {
        let mut follower = self.envelope.numbers();
        follower.level = registers.level;
        self.envelope = EnvelopeFollower::lent(follower);
        self.gate_state = registers.state;
        self.hold_counter = registers.counter;
    }

    /// Whether the sample just processed was loud.
    pub fn loud(&self) -> bool {
        self.envelope.value() > self.threshold
    }

    /// Whether it was aimed open.
    pub fn aimed_open(&self) -> bool {
        self.loud() || self.hold_counter > 0
    }

    pub fn hold_samples(&self) -> usize {
        self.get_hold_samples()
    }

    /// What `get_hold_samples` truncates.
    pub fn hold_product(&self) -> f32 {
        (self.hold_ms * 0.001) * self.sample_rate
    }
}
