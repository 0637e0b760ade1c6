//! Document 02's W7, with the orders of document 01's gate: a leveller's numbers, what each call does to them, and
//! one sample. Roots are taken over whole numbers.
use super::rust::Rust;
use crate::{
    bits::{bits32, single},
    calls::{
        Rules, Seen,
        number::{Number, Taker, singles},
    },
    exact::{self, BINARY32},
    limits::{LARGEST_SAMPLE, is_rate, is_smoothing, is_threshold_factor},
};

pub const NAMES: [&str; 5] = ["threshold", "ratio", "attack", "release", "makeup"];
pub const THRESHOLD: usize = 0;
pub const RATIO: usize = 1;
pub const ATTACK: usize = 2;
pub const RELEASE: usize = 3;
pub const MAKEUP: usize = 4;

pub const RATIOS: [f32; 3] = [1.0, 2.0, 4.0];
/// What the level follows is at least this.
pub const FLOOR: f32 = 1e-10;

/// What a host sets, and the level, which a sample moves, in the order of a state's bytes.
#[derive(Clone, Copy, Debug, Default)]
pub struct Leveller {
    pub rate: f32,
    pub threshold: f32,
    pub factor: f32,
    pub ratio: f32,
    pub attack: f32,
    pub rising: f32,
    pub release: f32,
    pub falling: f32,
    pub makeup: f32,
    pub level: f32,
}

/// The range of a setting that has one: all but the ratio.
pub const fn range(which: usize) -> (f32, f32) {
    match which {
        THRESHOLD => (-80.0, 0.0),
        ATTACK => (0.1, 100.0),
        RELEASE => (1.0, 1_000.0),
        _ => (0.0, 4.0),
    }
}

fn is_in_range(which: usize, value: f32) -> bool {
    let (lowest, highest) = range(which);
    match which {
        RATIO => RATIOS.contains(&value),
        _ => (lowest..=highest).contains(&value),
    }
}

/// Ratio and makeup take no worked number, so any stands beside them.
fn is_worked(which: usize, worked: f32) -> bool {
    match which {
        THRESHOLD => is_threshold_factor(worked),
        ATTACK | RELEASE => is_smoothing(worked),
        _ => true,
    }
}

/// The setting of a name, or 1.
fn setting(name: &[u8]) -> Result<usize, u32> {
    NAMES
        .iter()
        .position(|known| known.as_bytes() == name)
        .ok_or(1)
}

/// The first where it is larger, else the second.
const fn larger(a: f32, b: f32) -> f32 {
    if a > b { a } else { b }
}

fn root(x: f32) -> f32 {
    single(exact::root(BINARY32, bits32(x)))
}

/// 1/s or 1/(s*q), s being the root of `over` and q the root of s.
pub fn gain(ratio: f32, over: f32) -> f32 {
    if ratio == 1.0 || over == 1.0 {
        return 1.0;
    }
    let s = root(over);
    if ratio == 2.0 {
        1.0 / s
    } else {
        1.0 / (s * root(s))
    }
}

impl Leveller {
    /// The value and the worked number kept for a setting.
    pub const fn kept(&self, which: usize) -> (f32, f32) {
        match which {
            THRESHOLD => (self.threshold, self.factor),
            RATIO => (self.ratio, f32::NAN),
            ATTACK => (self.attack, self.rising),
            RELEASE => (self.release, self.falling),
            _ => (self.makeup, f32::INFINITY),
        }
    }

    /// The state with this value and this worked number, whatever they are.
    pub const fn with(mut self, which: usize, value: f32, worked: f32) -> Self {
        match which {
            THRESHOLD => (self.threshold, self.factor) = (value, worked),
            RATIO => self.ratio = value,
            ATTACK => (self.attack, self.rising) = (value, worked),
            RELEASE => (self.release, self.falling) = (value, worked),
            _ => self.makeup = value,
        }
        self
    }
}

impl Rules for Leveller {
    type Rust = Rust;

    /// 5, then 4.
    fn make(_: u32, rate: f32, mut worked: Taker) -> Result<Self, u32> {
        let [rising, falling] = worked.some();
        if !is_rate(rate) {
            return Err(5);
        }
        if !is_smoothing(rising) || !is_smoothing(falling) {
            return Err(4);
        }
        Ok(Self {
            rate,
            threshold: 0.0,
            factor: 1.0,
            ratio: 1.0,
            attack: 1.0,
            rising,
            release: 100.0,
            falling,
            makeup: 1.0,
            level: 0.0,
        })
    }

    fn is_acceptable(&self) -> bool {
        let could_be_set = (0..NAMES.len()).all(|which| {
            let (value, worked) = self.kept(which);
            is_in_range(which, value) && is_worked(which, worked)
        });
        could_be_set && is_rate(self.rate) && (0.0..=LARGEST_SAMPLE).contains(&self.level)
    }

    fn name(which: u32) -> Vec<u8> {
        let known = NAMES.get(which as usize).unwrap_or(&NAMES[THRESHOLD]);
        known.as_bytes().into()
    }

    /// 1, 3, 4.
    fn set(&self, name: &[u8], value: f32, mut worked: Taker) -> Result<Self, u32> {
        let which = setting(name)?;
        let worked = worked.single();
        if !is_in_range(which, value) {
            return Err(3);
        }
        if !is_worked(which, worked) {
            return Err(4);
        }
        Ok(self.with(which, value, worked))
    }

    fn read(&self, name: &[u8]) -> Result<f32, u32> {
        let (value, _) = self.kept(setting(name)?);
        Ok(value)
    }

    fn at_rest(mut self) -> Self {
        self.level = 0.0;
        self
    }

    fn sample(&mut self, input: f32) -> f32 {
        let r = larger(input.abs(), FLOOR);
        let c = if r > self.level {
            self.rising
        } else {
            self.falling
        };
        self.level = c.mul_add(self.level, (1.0 - c) * r);
        let over = larger(self.level / self.factor, 1.0);
        (input * gain(self.ratio, over)) * self.makeup
    }

    fn seen(&self) -> Seen {
        Seen {
            level: bits32(self.level),
            ..Seen::default()
        }
    }

    fn numbers(&self) -> Vec<Number> {
        singles(&[
            self.rate,
            self.threshold,
            self.factor,
            self.ratio,
            self.attack,
            self.rising,
            self.release,
            self.falling,
            self.makeup,
            self.level,
        ])
    }

    fn of(mut numbers: Taker) -> Self {
        let mut next = || numbers.single();
        Self {
            rate: next(),
            threshold: next(),
            factor: next(),
            ratio: next(),
            attack: next(),
            rising: next(),
            release: next(),
            falling: next(),
            makeup: next(),
            level: next(),
        }
    }
}
