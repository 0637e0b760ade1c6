//! Document 01's "Saturator": its numbers, what each call does to them, and one sample.
use super::rust::Rust;
use crate::{
    calls::{
        Rules,
        number::{Number, Taker, singles},
    },
    limits::{is_rate, is_smoothing},
};

pub const NAMES: [&str; 8] = [
    "low_drive",
    "mid_drive",
    "high_drive",
    "low_level",
    "mid_level",
    "high_level",
    "low_freq",
    "high_freq",
];
pub const LOW: usize = 6;
pub const HIGH: usize = 7;

/// b0, b1, b2, a1, a2.
pub type Filter = [f32; 5];

/// What a host sets: settings in the order of their names; the low frequency's low-pass and high-pass,
/// then the high one's; the followers' attack and release and the blockers' c. Then what a sample moves:
/// six filters of x1, x2, y1, y2 of the first half and of the second, in the order of the Rust's fields;
/// level, x1 and y1 of low, mid and high.
#[derive(Clone, Debug, Default)]
pub struct Saturator {
    pub rate: f32,
    pub settings: [f32; 8],
    pub filters: [Filter; 4],
    pub dynamics: [f32; 3],
    pub registers: [[f32; 8]; 6],
    pub bands: [[f32; 3]; 3],
}

pub const fn range(which: usize) -> (f32, f32) {
    match which {
        0..3 => (0.0, 1.0),
        LOW => (50.0, 500.0),
        HIGH => (1_000.0, 6_000.0),
        _ => (0.0, 2.0),
    }
}

fn is_in_range(which: usize, value: f32) -> bool {
    let (lowest, highest) = range(which);
    (lowest..=highest).contains(&value)
}

fn are_finite(filters: &[Filter]) -> bool {
    filters.as_flattened().iter().all(|x| x.is_finite())
}

/// The setting of a name, or 1.
fn setting(name: &[u8]) -> Result<usize, u32> {
    NAMES
        .iter()
        .position(|known| known.as_bytes() == name)
        .ok_or(1)
}

/// One half of a filter on its four registers.
fn half([b0, b1, b2, a1, a2]: Filter, registers: &mut [f32], x: f32) -> f32 {
    let [x1, x2, y1, y2] = *registers else {
        unreachable!("four registers");
    };
    let inputs = b2.mul_add(x2, b0.mul_add(x, b1 * x1));
    let y = a2.mul_add(-y2, a1.mul_add(-y1, inputs));
    registers.copy_from_slice(&[x, x1, y, y1]);
    y
}

fn filtered(numbers: Filter, registers: &mut [f32; 8], x: f32) -> f32 {
    let (first, second) = registers.split_at_mut(4);
    let middle = half(numbers, first, x);
    half(numbers, second, middle)
}

fn saturated(x: f32, drive: f32) -> f32 {
    let driven = x * drive.mul_add(9.0, 1.0);
    driven / (1.0 + driven.abs())
}

/// One band: follower, saturation, blocker.
fn band(x: f32, drive: f32, [attack, release, c]: [f32; 3], registers: &mut [f32; 3]) -> f32 {
    let [level, x1, y1] = *registers;
    let size = x.abs();
    let smoothing = if size > level { attack } else { release };
    let level = smoothing.mul_add(level, (1.0 - smoothing) * size);
    let saturated = if level > 0.0001 {
        saturated(x / (1.0 + level), drive) * level.mul_add(0.5, 1.0)
    } else {
        saturated(x, drive)
    };
    let y = c.mul_add(y1, saturated - x1);
    *registers = [level, saturated, y];
    y
}

impl Rules for Saturator {
    type Rust = Rust;

    /// 5, then 4.
    fn make(_: u32, rate: f32, mut worked: Taker) -> Result<Self, u32> {
        if !is_rate(rate) {
            return Err(5);
        }
        let state = Self {
            rate,
            settings: [0.0, 0.0, 0.0, 1.0, 1.0, 1.0, 200.0, 2_000.0],
            filters: [(); 4].map(|()| worked.some()),
            dynamics: worked.some(),
            ..Self::default()
        };
        if are_finite(&state.filters) && state.dynamics.into_iter().all(is_smoothing) {
            Ok(state)
        } else {
            Err(4)
        }
    }

    fn is_acceptable(&self) -> bool {
        let mut settings = self.settings.into_iter().enumerate();
        is_rate(self.rate)
            && settings.all(|(which, value)| is_in_range(which, value))
            && are_finite(&self.filters)
            && self.dynamics.into_iter().all(is_smoothing)
    }

    fn name(which: u32) -> Vec<u8> {
        let known = NAMES.get(which as usize).unwrap_or(&NAMES[0]);
        known.as_bytes().into()
    }

    /// 1, 3, 4.
    fn set(&self, name: &[u8], value: f32, mut worked: Taker) -> Result<Self, u32> {
        let which = setting(name)?;
        if !is_in_range(which, value) {
            return Err(3);
        }
        let mut state = self.clone();
        if let LOW | HIGH = which {
            let pair = [worked.some(), worked.some()];
            if !are_finite(&pair) {
                return Err(4);
            }
            let at = if which == LOW { 0 } else { 2 };
            state.filters[at..at + 2].copy_from_slice(&pair);
        }
        state.settings[which] = value;
        Ok(state)
    }

    fn read(&self, name: &[u8]) -> Result<f32, u32> {
        Ok(self.settings[setting(name)?])
    }

    fn at_rest(mut self) -> Self {
        self.registers = Default::default();
        self.bands = Default::default();
        self
    }

    fn sample(&mut self, input: f32) -> f32 {
        let [low_pass, high_pass, upper_low_pass, upper_high_pass] = self.filters;
        let [low_lp, mid_hp_low, mid_lp_high, high_hp, all_lp, all_hp] = &mut self.registers;
        let low = filtered(low_pass, low_lp, input);
        let side = filtered(high_pass, mid_hp_low, input);
        let mid = filtered(upper_low_pass, mid_lp_high, side);
        let high = filtered(upper_high_pass, high_hp, side);
        let low = filtered(upper_low_pass, all_lp, low) + filtered(upper_high_pass, all_hp, low);
        let [low_drive, mid_drive, high_drive, levels @ ..] = self.settings;
        let [lows, mids, highs] = &mut self.bands;
        let low = band(low, low_drive, self.dynamics, lows);
        let mid = band(mid, mid_drive, self.dynamics, mids);
        let high = band(high, high_drive, self.dynamics, highs);
        (low * levels[0] + mid * levels[1]) + high * levels[2]
    }

    fn numbers(&self) -> Vec<Number> {
        [
            &[self.rate][..],
            &self.settings,
            self.filters.as_flattened(),
            &self.dynamics,
            self.registers.as_flattened(),
            self.bands.as_flattened(),
        ]
        .into_iter()
        .flat_map(singles)
        .collect()
    }

    fn of(mut numbers: Taker) -> Self {
        Self {
            rate: numbers.single(),
            settings: numbers.some(),
            filters: [(); 4].map(|()| numbers.some()),
            dynamics: numbers.some(),
            registers: [(); 6].map(|()| numbers.some()),
            bands: [(); 3].map(|()| numbers.some()),
        }
    }
}
