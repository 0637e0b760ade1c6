//! The Rust's tone stack with presence's factor lent.
use super::rules::{NAMES, Tone};
use crate::{
    calls::{self, Seen},
    power::with_power,
};
use rustortion_core::amp::stages::{
    Stage,
    tonestack::{ToneRegisters, ToneStackModel, ToneStackStage},
};

pub struct Rust(ToneStackStage);

impl calls::Rust<Tone> for Rust {
    fn holding(state: &Tone) -> Self {
        let model = match state.model {
            0 => ToneStackModel::Modern,
            1 => ToneStackModel::British,
            2 => ToneStackModel::American,
            _ => ToneStackModel::Flat,
        };
        let [bass, mid, treble, presence] = state.controls;
        let mut stage = ToneStackStage::new(model, bass, mid, treble, presence, state.rate);
        let [dc, bass, treble, presence] = state.registers;
        stage.load(ToneRegisters {
            dc,
            bass,
            treble,
            presence,
        });
        Self(stage)
    }

    fn stage(&mut self) -> &mut dyn Stage {
        &mut self.0
    }

    /// The factor is lent to each block.
    fn lend(&mut self, _: &Tone) {}

    fn held(&self, state: &Tone) -> Tone {
        let registers = self.0.registers();
        Tone {
            controls: NAMES.map(|name| self.0.get_parameter(name).expect("a control")),
            registers: [
                registers.dc,
                registers.bass,
                registers.treble,
                registers.presence,
            ],
            ..state.clone()
        }
    }

    /// The Rust takes a NaN, document 01 refuses it by 3.
    fn takes_otherwise(name: &[u8], value: f32) -> bool {
        value.is_nan() && NAMES.iter().any(|known| known.as_bytes() == name)
    }

    fn block(&mut self, state: &Tone, samples: &mut [f32]) -> Vec<Seen> {
        let factor = state.factor;
        with_power(
            move |_, _| factor,
            || {
                for sample in samples {
                    *sample = self.0.process(*sample);
                }
            },
        );
        Vec::new()
    }
}
