//! Document 01's "Equaliser": its numbers, what each call does to them, and one sample.
use super::rust::Rust;
use crate::{
    calls::{
        Rules,
        number::{Number, Taker, doubles},
    },
    limits::is_rate,
};

pub const BANDS: usize = 16;
/// b0, b1, b2, a1, a2 of a band that lets everything through.
pub const UNITY: [f64; 5] = [1.0, 0.0, 0.0, 0.0, 0.0];

/// A value in dB, and b0, b1, b2, a1, a2.
#[derive(Clone, Copy, Debug, Default)]
pub struct Band {
    pub decibels: f32,
    pub worked: [f64; 5],
}

/// What a host sets; then what a sample moves: x1, x2, y1, y2 of each band.
#[derive(Clone, Debug, Default)]
pub struct Equaliser {
    pub rate: f32,
    pub bands: [Band; BANDS],
    pub registers: [[f64; 4]; BANDS],
}

pub fn is_in_range(decibels: f32) -> bool {
    (-12.0..=12.0).contains(&decibels)
}

pub fn is_unity(decibels: f32) -> bool {
    f64::from(decibels).abs() < 1e-6
}

impl Band {
    /// Whether a call could have left it.
    fn is_acceptable(&self) -> bool {
        let numbers = if is_unity(self.decibels) {
            self.worked.map(f64::to_bits) == UNITY.map(f64::to_bits)
        } else {
            self.worked.iter().all(|x| x.is_finite())
        };
        is_in_range(self.decibels) && numbers
    }
}

/// The band index that a name says: `band_` and then what Rust reads as a usize, at most 2^64-1.
pub fn index(name: &[u8]) -> Option<u64> {
    let number = name.strip_prefix(b"band_")?;
    let digits = number.strip_prefix(b"+").unwrap_or(number);
    if digits.is_empty() || !digits.iter().all(u8::is_ascii_digit) {
        return None;
    }
    digits.iter().try_fold(0u64, |value, digit| {
        value.checked_mul(10)?.checked_add(u64::from(digit - b'0'))
    })
}

/// The band of a name: 1, then 2.
fn band(name: &[u8]) -> Result<usize, u32> {
    let index = index(name).ok_or(1u32)?;
    if index > 15 {
        Err(2)
    } else {
        Ok(index as usize)
    }
}

/// fma(b0, x, fma(b1, x1, b2*x2)) - fma(a1, y1, a2*y2)
fn step([b0, b1, b2, a1, a2]: [f64; 5], registers: &mut [f64; 4], x: f64) -> f64 {
    let [x1, x2, y1, y2] = *registers;
    let y = b0.mul_add(x, b1.mul_add(x1, b2 * x2)) - a1.mul_add(y1, a2 * y2);
    *registers = [x, x1, y, y1];
    y
}

impl Rules for Equaliser {
    type Rust = Rust;

    fn make(_: u32, rate: f32, _: Taker) -> Result<Self, u32> {
        if !is_rate(rate) {
            return Err(5);
        }
        let band = Band {
            decibels: 0.0,
            worked: UNITY,
        };
        Ok(Self {
            rate,
            bands: [band; BANDS],
            ..Self::default()
        })
    }

    fn is_acceptable(&self) -> bool {
        is_rate(self.rate) && self.bands.iter().all(Band::is_acceptable)
    }

    fn name(which: u32) -> Vec<u8> {
        format!("band_{which}").into()
    }

    /// 1, 2, 3, 4.
    fn set(&self, name: &[u8], value: f32, mut worked: Taker) -> Result<Self, u32> {
        let band = band(name)?;
        if !is_in_range(value) {
            return Err(3);
        }
        let worked = worked.some_doubles();
        if !worked.iter().all(|x| x.is_finite()) {
            return Err(4);
        }
        let mut state = self.clone();
        let [_, b1, _, a1, _] = state.bands[band].worked;
        if is_unity(value) || (b1 == 0.0 && a1 == 0.0) {
            state.registers[band] = [0.0; 4];
        }
        state.bands[band] = Band {
            decibels: value,
            worked: if is_unity(value) { UNITY } else { worked },
        };
        Ok(state)
    }

    fn read(&self, name: &[u8]) -> Result<f32, u32> {
        Ok(self.bands[band(name)?].decibels)
    }

    fn at_rest(mut self) -> Self {
        self.registers = Default::default();
        self
    }

    fn sample(&mut self, input: f32) -> f32 {
        let mut x = f64::from(input);
        for (band, registers) in self.bands.iter().zip(&mut self.registers) {
            x = step(band.worked, registers, x);
        }
        x as f32
    }

    fn numbers(&self) -> Vec<Number> {
        let mut numbers = vec![Number::Single(self.rate)];
        for band in &self.bands {
            numbers.push(Number::Single(band.decibels));
            numbers.extend(doubles(&band.worked));
        }
        numbers.extend(doubles(self.registers.as_flattened()));
        numbers
    }

    fn of(mut numbers: Taker) -> Self {
        Self {
            rate: numbers.single(),
            bands: [(); BANDS].map(|()| Band {
                decibels: numbers.single(),
                worked: numbers.some_doubles(),
            }),
            registers: [(); BANDS].map(|()| numbers.some_doubles()),
        }
    }
}
