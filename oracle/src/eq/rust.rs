//! The Rust's equaliser with the bands' numbers lent.
use super::rules::{BANDS, Band, Equaliser, is_unity};
use crate::calls;
use rustortion_core::amp::stages::{
    Stage,
    eq::{BandNumbers, BandRegisters, EqStage},
};

pub struct Rust(EqStage);

impl calls::Rust<Equaliser> for Rust {
    fn holding(state: &Equaliser) -> Self {
        let decibels = state.bands.map(|band| band.decibels);
        let mut rust = Self(EqStage::new(decibels, state.rate));
        rust.lend(state);
        for (band, &[x1, x2, y1, y2]) in state.registers.iter().enumerate() {
            rust.0.load(band, BandRegisters { x1, x2, y1, y2 });
        }
        rust
    }

    fn stage(&mut self) -> &mut dyn Stage {
        &mut self.0
    }

    /// A unity band's numbers aren't worked out, so they are the Rust's own.
    fn lend(&mut self, state: &Equaliser) {
        for (index, band) in state.bands.iter().enumerate() {
            let [b0, b1, b2, a1, a2] = band.worked;
            if !is_unity(band.decibels) {
                self.0.lend_band(index, BandNumbers { b0, b1, b2, a1, a2 });
            }
        }
    }

    fn held(&self, state: &Equaliser) -> Equaliser {
        let mut held = state.clone();
        for index in 0..BANDS {
            let numbers = self.0.band(index);
            let name = format!("band_{index}");
            held.bands[index] = Band {
                decibels: self.0.get_parameter(&name).expect("a band"),
                worked: [numbers.b0, numbers.b1, numbers.b2, numbers.a1, numbers.a2],
            };
            let registers = self.0.registers(index);
            held.registers[index] = [registers.x1, registers.x2, registers.y1, registers.y2];
        }
        held
    }
}
