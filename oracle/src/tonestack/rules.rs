//! Document 01's "Tone stack": its numbers, what each call does to them, and one sample.
use super::rust::Rust;
use crate::{
    calls::{
        Rules,
        number::{Number, Taker, singles},
    },
    limits::is_rate,
};
use std::f32::consts::PI;

pub const NAMES: [&str; 4] = ["bass", "mid", "treble", "presence"];
pub const PRESENCE: usize = 3;

/// What a host sets: the controls in the order of their names; then what a sample moves: the DC step's
/// register, bass's, treble's and presence's.
#[derive(Clone, Debug, Default)]
pub struct Tone {
    pub rate: f32,
    pub model: u32,
    pub controls: [f32; 4],
    pub factor: f32,
    pub registers: [f32; 4],
}

fn is_factor(factor: f32) -> bool {
    (0.5..=2.0).contains(&factor)
}

/// The control of a name, or 1.
fn control(name: &[u8]) -> Result<usize, u32> {
    NAMES
        .iter()
        .position(|known| known.as_bytes() == name)
        .ok_or(1)
}

/// Held to 0 to 2; -0 stays as it is.
fn clamped(value: f32) -> f32 {
    value.clamp(0.0, 2.0)
}

impl Tone {
    /// Bass's, treble's and presence's corner in Hz.
    const fn corners(&self) -> [f32; 3] {
        match self.model {
            0 => [120.0, 2_200.0, 6_000.0],
            2 => [80.0, 1_800.0, 4_000.0],
            _ => [100.0, 2_000.0, 5_000.0],
        }
    }

    fn alpha(&self, corner: f32) -> f32 {
        let dt = 1.0 / self.rate;
        dt / (dt + 1.0 / (2.0 * PI * corner))
    }

    /// A control's gain in the mix.
    const fn gain(&self, control: usize) -> f32 {
        let gain = self.controls[control];
        if gain > 0.001 { gain } else { 0.001 }
    }
}

impl Rules for Tone {
    type Rust = Rust;

    fn make(model: u32, rate: f32, _: Taker) -> Result<Self, u32> {
        if !is_rate(rate) {
            return Err(5);
        }
        Ok(Self {
            rate,
            model,
            controls: [1.0; 4],
            factor: 1.0,
            ..Self::default()
        })
    }

    fn is_acceptable(&self) -> bool {
        let in_range = |control: &f32| (0.0..=2.0).contains(control);
        is_rate(self.rate)
            && self.model <= 3
            && self.controls.iter().all(in_range)
            && is_factor(self.factor)
    }

    fn name(which: u32) -> Vec<u8> {
        let known = NAMES.get(which as usize).unwrap_or(&NAMES[0]);
        known.as_bytes().into()
    }

    /// 1, 3, 4.
    fn set(&self, name: &[u8], value: f32, mut worked: Taker) -> Result<Self, u32> {
        let control = control(name)?;
        if value.is_nan() {
            return Err(3);
        }
        let mut state = self.clone();
        if control == PRESENCE {
            state.factor = worked.single();
            if !is_factor(state.factor) {
                return Err(4);
            }
        }
        state.controls[control] = clamped(value);
        Ok(state)
    }

    fn read(&self, name: &[u8]) -> Result<f32, u32> {
        Ok(self.controls[control(name)?])
    }

    fn at_rest(mut self) -> Self {
        self.registers = [0.0; 4];
        self
    }

    fn sample(&mut self, input: f32) -> f32 {
        let [bass_corner, treble_corner, presence_corner] = self.corners();
        let [dc, bass, treble, presence] = self.registers;
        let low_pass = |alpha: f32, state: f32, x: f32| alpha.mul_add(x - state, state);
        let dc = dc + self.alpha(20.0) * (input - dc);
        let x = input - dc;
        let bass = low_pass(self.alpha(bass_corner), bass, x);
        let treble = low_pass(self.alpha(treble_corner), treble, x);
        let middle = (treble - bass) * self.gain(1);
        let lower = bass.mul_add(self.gain(0), middle);
        let mix = (x - treble).mul_add(self.gain(2), lower);
        let presence = low_pass(self.alpha(presence_corner), presence, mix);
        let shelf = (mix - presence).mul_add(self.factor, presence);
        self.registers = [dc, bass, treble, presence];
        let last = match self.model {
            0 => shelf * 0.95,
            1 => shelf * 1.05,
            2 => shelf * 0.97,
            _ => shelf,
        };
        last * 0.7
    }

    fn numbers(&self) -> Vec<Number> {
        let mut numbers = vec![Number::Single(self.rate), Number::Whole(self.model)];
        numbers.extend(singles(&self.controls));
        numbers.push(Number::Single(self.factor));
        numbers.extend(singles(&self.registers));
        numbers
    }

    fn of(mut numbers: Taker) -> Self {
        Self {
            rate: numbers.single(),
            model: numbers.whole(),
            controls: numbers.some(),
            factor: numbers.single(),
            registers: numbers.some(),
        }
    }
}
