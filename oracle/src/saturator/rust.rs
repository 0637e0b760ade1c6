//! The Rust's saturator with filters', followers' and blockers' numbers lent.
use super::rules::{NAMES, Saturator};
use crate::calls;
use rustortion_core::amp::stages::{
    Stage,
    multiband_saturator::{
        CrossoverNumbers, DynamicsNumbers, MultibandSaturatorStage, SaturatorRegisters,
    },
};

pub struct Rust(MultibandSaturatorStage);

impl calls::Rust<Saturator> for Rust {
    fn holding(state: &Saturator) -> Self {
        let [
            low_drive,
            mid_drive,
            high_drive,
            low,
            mid,
            high,
            low_freq,
            high_freq,
        ] = state.settings;
        let mut rust = Self(MultibandSaturatorStage::new(
            low_drive, mid_drive, high_drive, low, mid, high, low_freq, high_freq, state.rate,
        ));
        rust.lend(state);
        rust.0.load(SaturatorRegisters {
            filters: state.registers,
            levels: state.bands.map(|[level, _, _]| level),
            x1: state.bands.map(|[_, x1, _]| x1),
            y1: state.bands.map(|[_, _, y1]| y1),
        });
        rust
    }

    fn stage(&mut self) -> &mut dyn Stage {
        &mut self.0
    }

    fn lend(&mut self, state: &Saturator) {
        let [low_pass, high_pass, upper_low_pass, upper_high_pass] = state.filters;
        let [attack, release, blocker] = state.dynamics;
        self.0.lend_low(CrossoverNumbers {
            low_pass,
            high_pass,
        });
        self.0.lend_high(CrossoverNumbers {
            low_pass: upper_low_pass,
            high_pass: upper_high_pass,
        });
        self.0.lend_dynamics(DynamicsNumbers {
            attack,
            release,
            blocker,
        });
    }

    fn held(&self, state: &Saturator) -> Saturator {
        let (low, high) = (self.0.low(), self.0.high());
        let registers = self.0.registers();
        Saturator {
            settings: NAMES.map(|name| self.0.get_parameter(name).expect("a setting")),
            filters: [low.low_pass, low.high_pass, high.low_pass, high.high_pass],
            registers: registers.filters,
            bands: [0, 1, 2].map(|at| [registers.levels[at], registers.x1[at], registers.y1[at]]),
            ..state.clone()
        }
    }
}
