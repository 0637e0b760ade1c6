//! The Rust's gate with worked numbers lent, and beside it the quiet count, which it doesn't have: by what it takes as loud.
use super::rules::Gate;
use crate::{
    bits::bits32,
    calls::{self, HoldTold, Seen},
    exact::{CUT, EXACT},
};
use rustortion_core::amp::stages::{
    Stage,
    noise_gate::{GateRegisters, NoiseGateStage},
};

pub struct Rust {
    stage: NoiseGateStage,
    /// Of samples that were not loud, with no top.
    quiet: u64,
}

impl Rust {
    fn quiet(&self) -> u32 {
        u32::try_from(self.quiet).unwrap_or(u32::MAX)
    }

    fn process(&mut self, sample: f32) -> f32 {
        let output = self.stage.process(sample);
        self.quiet += 1;
        if self.stage.loud() {
            self.quiet = 0;
        }
        output
    }
}

impl calls::Rust<Gate> for Rust {
    fn holding(gate: &Gate) -> Self {
        let mut stage = NoiseGateStage::new(
            gate.threshold,
            gate.ratio,
            gate.attack,
            gate.hold,
            gate.release,
            gate.rate,
        );
        stage.lend_follower(gate.rising, gate.falling);
        let mut rust = Self {
            stage,
            quiet: gate.quiet.into(),
        };
        rust.lend(gate);
        rust.stage.load(GateRegisters {
            level: gate.level,
            state: gate.state,
            counter: gate.counter as usize,
        });
        rust
    }

    fn stage(&mut self) -> &mut dyn Stage {
        &mut self.stage
    }

    fn reset(&mut self) {
        self.stage.reset();
        self.quiet = 0;
    }

    fn lend(&mut self, gate: &Gate) {
        self.stage.lend_threshold(gate.factor);
        self.stage.lend_smoothing(gate.opening, gate.closing);
    }

    fn held(&self, gate: &Gate) -> Gate {
        let registers = self.stage.registers();
        let read = |name| self.stage.get_parameter(name).expect("a setting");
        Gate {
            ratio: read("ratio"),
            attack: read("attack"),
            release: read("release"),
            hold: read("hold"),
            level: registers.level,
            state: registers.state,
            counter: registers.counter as u64,
            quiet: self.quiet(),
            ..*gate
        }
    }

    /// The Rust counts the samples, and has no word: it is that of its own product, which H must be.
    fn hold_told(&self, name: &[u8]) -> HoldTold {
        if name != b"hold" {
            return HoldTold::default();
        }
        let samples = self.stage.hold_samples();
        let is_exact = samples as f32 == self.stage.hold_product();
        HoldTold {
            word: if is_exact { EXACT } else { CUT },
            samples: samples as u64,
        }
    }

    /// The Rust's threshold is a logarithm, document 01's the value last set.
    fn reads_otherwise(name: &[u8]) -> bool {
        name == b"threshold"
    }

    fn block(&mut self, _: &Gate, samples: &mut [f32]) -> Vec<Seen> {
        let run = |sample: &mut f32| {
            *sample = self.process(*sample);
            Seen {
                open: self.stage.aimed_open(),
                level: bits32(self.stage.registers().level),
                quiet: self.quiet(),
            }
        };
        samples.iter_mut().map(run).collect()
    }
}
