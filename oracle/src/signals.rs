//! Samples that a block takes, by what they try on a stage. What is loud to it is a size that they lie
//! around: of a gate, its threshold's factor.
use crate::{
    limits::{LARGEST_SAMPLE, LONGEST_BLOCK},
    numbers::{above, below},
    random::Random,
};

/// Sizes that are loud to a stage that has no threshold.
pub const LOUD: [f32; 4] = [1.0, 0.125, 1e-4, 8.0];

type Signal = fn(f32, usize, &mut Random) -> Vec<f32>;

const SIGNALS: [Signal; 8] = [
    bursts,
    bursts,
    wave,
    noise,
    silence,
    faint,
    at_the_border,
    any,
];

/// So many samples that a block takes, of a kind drawn at random.
pub fn drawn(loud: f32, length: usize, random: &mut Random) -> Vec<f32> {
    random.pick(&SIGNALS)(loud, length, random)
}

/// A block's length: mostly short, so that much happens between blocks.
pub fn length(random: &mut Random) -> usize {
    match random.below(64) {
        0 => random.pick(&[0, 1, 2, LONGEST_BLOCK - 1, LONGEST_BLOCK]),
        1..4 => random.below(LONGEST_BLOCK as u64) as usize,
        _ => random.below(500) as usize,
    }
}

/// From -1 to 1.
fn unit(random: &mut Random) -> f32 {
    random.between(-(1 << 23), 1 << 23) as f32 / (1 << 23) as f32
}

/// A size around the loud one: from a quarter of it to eight times it.
fn around(loud: f32, random: &mut Random) -> f32 {
    let power = random.between(-2, 3) as i32;
    (loud * 2f32.powi(power)).min(LARGEST_SAMPLE)
}

/// Speech: words of loud noise, and gaps of nothing, or of little, between them.
pub fn bursts(loud: f32, length: usize, random: &mut Random) -> Vec<f32> {
    let mut samples = Vec::with_capacity(length);
    while samples.len() < length {
        let top = around(loud, random).max(loud);
        let word = random.below(24) as usize;
        samples.extend((0..word).map(|_| top * unit(random)));
        let rest = random.pick(&[0.0, -0.0, loud / 512.0, 1e-40]);
        let gap = random.below(60) as usize;
        samples.extend((0..gap).map(|_| rest * unit(random)));
    }
    samples.truncate(length);
    samples
}

/// A wave that swells and fades: half turns of 1 - x^2, since a sine's bits differ between machines.
fn wave(loud: f32, length: usize, random: &mut Random) -> Vec<f32> {
    let top = around(loud, random);
    let turn = random.between(3, 200);
    let swell = random.between(50, 3_000);
    let half = |at: i64, length: i64| {
        let x = (2 * (at % length) - length) as f32 / length as f32;
        x.mul_add(-x, 1.0)
    };
    let sign = |at: i64| if at / turn % 2 == 0 { 1.0 } else { -1.0 };
    (0..length as i64)
        .map(|at| sign(at) * top * half(at, turn) * half(at, swell))
        .collect()
}

fn noise(loud: f32, length: usize, random: &mut Random) -> Vec<f32> {
    let top = around(loud, random);
    (0..length).map(|_| top * unit(random)).collect()
}

/// Zeros of either sign, and now and then one loud sample.
fn silence(loud: f32, length: usize, random: &mut Random) -> Vec<f32> {
    let top = (loud * 4.0).min(LARGEST_SAMPLE);
    let sample = |random: &mut Random| match random.below(40) {
        0 => top,
        1..8 => -0.0,
        _ => 0.0,
    };
    (0..length).map(|_| sample(random)).collect()
}

/// Subnormal samples, and the smallest normal ones.
fn faint(_: f32, length: usize, random: &mut Random) -> Vec<f32> {
    let sample = |random: &mut Random| random.bits32() & 0x80ff_ffff;
    (0..length)
        .map(|_| f32::from_bits(sample(random)))
        .collect()
}

/// The loud size itself, and its neighbours.
fn at_the_border(loud: f32, length: usize, random: &mut Random) -> Vec<f32> {
    let sizes = [loud, above(loud), below(loud), 0.0];
    let sample = |random: &mut Random| random.pick(&sizes) * random.pick(&[1.0, -1.0]);
    (0..length).map(|_| sample(random)).collect()
}

/// Any bits up to 64 in size, the border among them.
fn any(_: f32, length: usize, random: &mut Random) -> Vec<f32> {
    let sample = |random: &mut Random| {
        let size = random.below(u64::from(LARGEST_SAMPLE.to_bits()) + 1);
        let bits = match random.below(16) {
            0 => LARGEST_SAMPLE.to_bits(),
            _ => size as u32,
        };
        f32::from_bits(bits | random.bits32() & 1 << 31)
    };
    (0..length).map(|_| sample(random)).collect()
}
