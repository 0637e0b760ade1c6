//! The operand of an operation that takes one, as bits, by what it tries.
use super::{Operation, roots, wholes};
use crate::{
    exact::{BINARY32, BINARY64, Format},
    random::Random,
    shapes::{exponent, fraction, normal, nudged, odd, scaled, signed, special, subnormal},
};

pub type Family = fn(Format, &mut Random) -> u64;

/// The families of an operation's operand.
pub const fn families(operation: Operation) -> &'static [Family] {
    match operation {
        Operation::Narrowed => &[any_bits, in_single_range, at_half_a_step, at_largest_single],
        Operation::Truncated => &[any_bits, in_whole_range, at_whole_or_half, at_whole_border],
        Operation::Root32 => &roots::FAMILIES,
        Operation::Exactness => &wholes::FAMILIES,
        _ => &[any_bits, any_normal, special, subnormal],
    }
}

pub fn any_bits(_: Format, random: &mut Random) -> u64 {
    random.bits()
}

fn any_normal(format: Format, random: &mut Random) -> u64 {
    let exponent = exponent(format, random);
    normal(format, exponent, random)
}

/// An f64 whose exponent an f32 can have, or nearly.
fn in_single_range(format: Format, random: &mut Random) -> u64 {
    let exponent = random.between(-155, 130);
    normal(format, exponent, random)
}

/// An f64 whose digits behind an f32's last one are a half, next to it, none or all.
fn at_half_a_step(format: Format, random: &mut Random) -> u64 {
    let exponent = random.between(-151, 127);
    let subnormal_digits = (-126 - exponent).max(0) as u32;
    let cut = BINARY64.fraction - BINARY32.fraction + subnormal_digits;
    let half = 1 << (cut - 1);
    let behind = random.pick(&[0, 1, half - 1, half, half + 1, 2 * half - 1]);
    let digits = fraction(format, random) >> cut << cut | behind;
    let field = (exponent + i64::from(format.bias())) as u64;
    let size = field << format.fraction | digits & ((1 << format.fraction) - 1);
    signed(format, size, random)
}

/// An f64 at the half step above the largest f32.
fn at_largest_single(format: Format, random: &mut Random) -> u64 {
    let steps = random.between(-3, 3);
    let half_step_above = scaled(format, (1 << 25) - 1, 103, random);
    nudged(format, half_step_above, steps)
}

/// An f32 from an eighth to past 2^64.
pub fn in_whole_range(format: Format, random: &mut Random) -> u64 {
    let exponent = random.between(-3, 66);
    normal(format, exponent, random)
}

/// A whole number or one and a half, or an f32 next to it.
pub fn at_whole_or_half(format: Format, random: &mut Random) -> u64 {
    let digits = random.between(1, i64::from(format.fraction) + 1) as u32;
    let power = random.pick(&[-1, 0]);
    let steps = random.between(-1, 1);
    let value = scaled(format, odd(digits, random), power, random);
    nudged(format, value, steps)
}

/// A power of two, where whole numbers end among them, or an f32 next to it.
pub fn at_whole_border(format: Format, random: &mut Random) -> u64 {
    let power = random.pick(&[-1, 0, 23, 24, 31, 32, 52, 53, 62, 63, 64, 64, 64, 65]);
    let steps = random.between(-3, 3);
    let value = scaled(format, 1, power, random);
    nudged(format, value, steps)
}
