//! Document 01's "Gate": its numbers, what each call does to them, and one sample. The quiet count is document 02's W10.
use super::{
    rust::Rust,
    setting::{NAMES, Setting},
};
use crate::{
    bits::bits32,
    calls::{
        HoldTold, Rules, Seen,
        number::{Number, Taker, singles},
    },
    exact::{self, BINARY32},
    limits::{LARGEST_SAMPLE, is_rate, is_smoothing},
};

/// The hold of a made gate, in milliseconds: document 02's W2.
const MADE_HOLD: f32 = 100.0;

/// The longest hold, in milliseconds; the counter's bound.
pub const LONGEST_HOLD: f32 = 500.0;
pub const LONGEST_COUNT: u64 = 96_000;

/// What a host sets and what a sample moves, in the order of the answers' bytes.
#[derive(Clone, Copy, Debug, Default)]
pub struct Gate {
    pub rate: f32,
    pub threshold: f32,
    pub factor: f32,
    pub ratio: f32,
    pub attack: f32,
    pub opening: f32,
    pub release: f32,
    pub closing: f32,
    pub hold: f32,
    pub rising: f32,
    pub falling: f32,
    pub level: f32,
    pub state: f32,
    pub counter: u64,
    pub quiet: u32,
}

impl Gate {
    /// Its numbers as releases before the quiet count kept them.
    pub fn numbers_before(&self) -> Vec<Number> {
        let mut numbers = singles(&[
            self.rate,
            self.threshold,
            self.factor,
            self.ratio,
            self.attack,
            self.opening,
            self.release,
            self.closing,
            self.hold,
            self.rising,
            self.falling,
            self.level,
            self.state,
        ]);
        numbers.push(Number::Long(self.counter));
        numbers
    }

    /// Takes those numbers; the quiet count, which is not among them, is 0.
    fn taken_before(numbers: &mut Taker) -> Self {
        let mut next = || numbers.single();
        Self {
            rate: next(),
            threshold: next(),
            factor: next(),
            ratio: next(),
            attack: next(),
            opening: next(),
            release: next(),
            closing: next(),
            hold: next(),
            rising: next(),
            falling: next(),
            level: next(),
            state: next(),
            counter: numbers.long(),
            quiet: 0,
        }
    }

    /// The value kept for a setting.
    const fn kept(&self, setting: Setting) -> f32 {
        match setting {
            Setting::Threshold(..) => self.threshold,
            Setting::Ratio(_) => self.ratio,
            Setting::Attack(..) => self.attack,
            Setting::Release(..) => self.release,
            Setting::Hold(_) => self.hold,
        }
    }

    /// H and its word: document 02's W9, over whole numbers. They are those of (hold*0.001)*rate, each product rounded.
    fn hold_in_samples(&self) -> HoldTold {
        let bits = |x: f32| u64::from(x.to_bits());
        let product = |a, b| exact::product(BINARY32, a, b);
        let samples = product(product(bits(self.hold), bits(0.001)), bits(self.rate));
        HoldTold {
            word: exact::exactness(BINARY32, samples),
            samples: exact::truncated(BINARY32, samples),
        }
    }
}

const fn pick(first: bool, a: f32, b: f32) -> f32 {
    if first { a } else { b }
}

/// fma(c, from, (1-c)*to)
fn toward(c: f32, from: f32, to: f32) -> f32 {
    c.mul_add(from, (1.0 - c) * to)
}

impl Rules for Gate {
    type Rust = Rust;

    /// 5, then 4.
    fn make(_: u32, rate: f32, mut worked: Taker) -> Result<Self, u32> {
        let [rising, falling] = worked.some();
        if !is_rate(rate) {
            return Err(5);
        }
        if !is_smoothing(rising) || !is_smoothing(falling) {
            return Err(4);
        }
        Ok(Self {
            rate,
            factor: 1.0,
            ratio: 10.0,
            attack: 1.0,
            release: 100.0,
            hold: MADE_HOLD,
            rising,
            falling,
            ..Self::default()
        })
    }

    /// What 9 asks.
    fn is_acceptable(&self) -> bool {
        let could_be_set = [
            Setting::Threshold(self.threshold, self.factor),
            Setting::Ratio(self.ratio),
            Setting::Attack(self.attack, self.opening),
            Setting::Release(self.release, self.closing),
            Setting::Hold(self.hold),
        ]
        .into_iter()
        .all(Setting::is_allowed);
        could_be_set
            && is_rate(self.rate)
            && is_smoothing(self.rising)
            && is_smoothing(self.falling)
            && (0.0..=LARGEST_SAMPLE).contains(&self.level)
            && (0.0..=1.0).contains(&self.state)
            && self.counter <= LONGEST_COUNT
    }

    fn name(which: u32) -> Vec<u8> {
        NAMES
            .get(which as usize)
            .unwrap_or(&NAMES[0])
            .as_bytes()
            .into()
    }

    /// 1, 3, 4.
    fn set(&self, name: &[u8], value: f32, mut worked: Taker) -> Result<Self, u32> {
        match Setting::named(name, value, worked.single()) {
            None => Err(1),
            Some(setting) if !setting.is_in_range() => Err(3),
            Some(setting) if !setting.is_worked() => Err(4),
            Some(setting) => Ok(setting.taken(*self)),
        }
    }

    fn hold_told(&self, name: &[u8]) -> HoldTold {
        match name {
            b"hold" => self.hold_in_samples(),
            _ => HoldTold::default(),
        }
    }

    fn read(&self, name: &[u8]) -> Result<f32, u32> {
        let setting = Setting::named(name, 0.0, 0.0).ok_or(1_u32)?;
        Ok(self.kept(setting))
    }

    fn at_rest(mut self) -> Self {
        (self.level, self.state) = (0.0, 0.0);
        (self.counter, self.quiet) = (0, 0);
        self
    }

    fn sample(&mut self, input: f32) -> f32 {
        let size = input.abs();
        self.level = toward(
            pick(size > self.level, self.rising, self.falling),
            self.level,
            size,
        );
        let loud = self.level > self.factor;
        if loud {
            self.counter = ((self.hold * 0.001) * self.rate) as u64;
        } else if self.counter > 0 {
            self.counter -= 1;
        }
        self.quiet = if loud {
            0
        } else {
            self.quiet.saturating_add(1)
        };
        let open = loud || self.counter > 0;
        let target = pick(open, 1.0, 0.0);
        self.state = toward(
            pick(target > self.state, self.opening, self.closing),
            self.state,
            target,
        );
        let closed = 1.0 / self.ratio;
        let gain = pick(
            self.state < 0.999,
            (1.0 - closed).mul_add(self.state, closed),
            1.0,
        );
        input * gain
    }

    fn seen(&self) -> Seen {
        Seen {
            open: self.level > self.factor || self.counter > 0,
            level: bits32(self.level),
            quiet: self.quiet,
        }
    }

    fn numbers(&self) -> Vec<Number> {
        let mut numbers = self.numbers_before();
        numbers.push(Number::Whole(self.quiet));
        numbers
    }

    fn of(mut numbers: Taker) -> Self {
        let gate = Self::taken_before(&mut numbers);
        Self {
            quiet: numbers.whole(),
            ..gate
        }
    }

    fn of_before(mut numbers: Taker) -> Self {
        Self::taken_before(&mut numbers)
    }
}
