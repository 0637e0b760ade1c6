//! Numbers that a state holds: those that are accepted, their limits among them, and those that are not.
use crate::{
    limits::{LARGEST_SAMPLE, LOWEST_FACTOR},
    random::Random,
};

/// The next float above.
pub const fn above(x: f32) -> f32 {
    match x.to_bits() {
        0 | 0x8000_0000 => SMALLEST,
        bits if bits < 0x8000_0000 => f32::from_bits(bits + 1),
        bits => f32::from_bits(bits - 1),
    }
}

pub const fn below(x: f32) -> f32 {
    -above(-x)
}

/// The largest number below 1, and the smallest one.
const BELOW_ONE: f32 = 1.0 - f32::EPSILON / 2.0;
pub const SMALLEST: f32 = f32::from_bits(1);
/// A NaN that is quiet, one that is negative with a payload, and one that signals.
pub const NANS: [f32; 3] = [
    f32::NAN,
    f32::from_bits(0xffc0_0001),
    f32::from_bits(0x7f80_0001),
];

pub const SMOOTHING: [f32; 6] = [0.0, -0.0, SMALLEST, 0.5, BELOW_ONE, 0.999_977_3];
pub const SMOOTHING_REFUSED: [f32; 7] = [
    1.0,
    -SMALLEST,
    -1.0,
    f32::INFINITY,
    NANS[0],
    NANS[1],
    NANS[2],
];
pub const RATES_REFUSED: [f32; 9] = [
    0.0,
    7_999.0,
    7_999.999_5,
    192_000.02,
    192_001.0,
    48_000.5,
    -48_000.0,
    f32::INFINITY,
    f32::NAN,
];
pub const SAMPLES_REFUSED: [f32; 8] = [
    above(LARGEST_SAMPLE),
    -above(LARGEST_SAMPLE),
    f32::MAX,
    f32::INFINITY,
    f32::NEG_INFINITY,
    NANS[0],
    NANS[1],
    NANS[2],
];

pub fn refused_sample(random: &mut Random) -> f32 {
    random.pick(&SAMPLES_REFUSED)
}

/// Within a range and at its ends; a zero end of either sign.
pub fn within(low: f32, high: f32, random: &mut Random) -> f32 {
    let part = random.below(1 << 24) as f32 / (1 << 24) as f32;
    match random.below(8) {
        0 => low,
        1 => high,
        2 if low == 0.0 || high == 0.0 => -0.0,
        _ => ((high - low) * part + low).clamp(low, high),
    }
}

/// A register's bits: infinities, zeros and NaN of each kind more often than others.
pub fn wild(random: &mut Random) -> f32 {
    let odd = [f32::INFINITY, f32::NEG_INFINITY, 0.0, -0.0, f32::MAX];
    match random.below(4) {
        0 => random.pick(&odd),
        1 => random.pick(&NANS),
        _ => f32::from_bits(random.bits32()),
    }
}

/// A smoothing number: a limit, any bits, or near 0, near 1 or like those that a time gives.
pub fn smoothing(random: &mut Random) -> f32 {
    let one = 1f32.to_bits();
    let few = random.below(5_000) as u32;
    match random.below(8) {
        0 => random.pick(&SMOOTHING),
        1 => f32::from_bits(random.below(one.into()) as u32),
        2 => f32::from_bits(one - 1 - few),
        3 => f32::from_bits(few),
        4 => 0.0,
        _ => random.below(1 << 20) as f32 / (1 << 20) as f32,
    }
}

/// A threshold's linear factor: a limit, or of any exponent that it can have.
pub fn threshold_factor(random: &mut Random) -> f32 {
    let (low, high) = (LOWEST_FACTOR.to_bits(), 1f32.to_bits());
    match random.below(8) {
        0 => LOWEST_FACTOR,
        1 => 1.0,
        _ => f32::from_bits(low + random.below(u64::from(high - low) + 1) as u32),
    }
}

/// A follower's level in the middle of the work.
pub fn level(random: &mut Random) -> f32 {
    within(0.0, LARGEST_SAMPLE, random) * random.pick(&[1.0, 1.0 / 64.0, 1e-6, 1e-40])
}

pub fn rate(random: &mut Random) -> f32 {
    match random.below(3) {
        0 => random.pick(&[8_000.0, 44_100.0, 48_000.0, 96_000.0, 192_000.0]),
        _ => random.between(8_000, 192_000) as f32,
    }
}

/// The values at a range's ends, which are accepted, and those just outside it.
pub fn ends(low: f32, high: f32) -> [(f32, bool); 9] {
    [
        (low, true),
        (high, true),
        (above(low), true),
        (below(high), true),
        (below(low), false),
        (above(high), false),
        (f32::NAN, false),
        (f32::INFINITY, false),
        (f32::NEG_INFINITY, false),
    ]
}
