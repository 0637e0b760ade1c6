//! Values that stress a format: its borders, and significands of few digits or near a power of two.
use crate::{
    exact::{self, Format},
    random::Random,
};

/// Both zeros, the borders of the subnormal, normal and finite values, one, the infinities, and NaN
/// patterns: quiet, negative with a payload, and signalling.
pub fn specials(format: Format) -> Vec<u64> {
    let lowest_normal = 1 << format.fraction;
    let sizes = [
        0,
        1,
        lowest_normal - 1,
        lowest_normal,
        format.one(),
        format.infinity() - 1,
        format.infinity(),
    ];
    let both_signs = sizes
        .into_iter()
        .flat_map(|size| [size, size | format.sign()]);
    let nans = [
        format.nan(),
        format.nan() | format.sign() | 5,
        format.infinity() | 1,
    ];
    both_signs.chain(nans).collect()
}

pub fn special(format: Format, random: &mut Random) -> u64 {
    random.pick(&specials(format))
}

/// Random digits of a significand behind its leading one: all of them, the first or the last few, or
/// all the same.
pub fn fraction(format: Format, random: &mut Random) -> u64 {
    let all = (1 << format.fraction) - 1;
    let few = random.below(format.fraction.into());
    match random.below(6) {
        0 => random.bits() & all & !(all >> few),
        1 => random.bits() & (all >> few),
        2 => random.pick(&[0, all]),
        _ => random.bits() & all,
    }
}

/// A normal number with this exponent, or the nearest one that the format has.
pub fn normal(format: Format, exponent: i64, random: &mut Random) -> u64 {
    let bias = i64::from(format.bias());
    let field = (exponent + bias).clamp(1, 2 * bias) as u64;
    signed(
        format,
        field << format.fraction | fraction(format, random),
        random,
    )
}

/// An exponent of a normal number.
pub fn exponent(format: Format, random: &mut Random) -> i64 {
    let bias = i64::from(format.bias());
    random.between(1 - bias, bias)
}

pub fn subnormal(format: Format, random: &mut Random) -> u64 {
    signed(format, fraction(format, random), random)
}

/// This size with either sign.
pub fn signed(format: Format, size: u64, random: &mut Random) -> u64 {
    if random.coin() {
        size
    } else {
        size | format.sign()
    }
}

/// This size without its sign.
pub const fn positive(format: Format, bits: u64) -> u64 {
    bits & (format.sign() - 1)
}

/// The value some steps above or below in the order of the sizes' bits.
pub fn nudged(format: Format, bits: u64, steps: i64) -> u64 {
    let size = (bits & (format.sign() - 1)).saturating_add_signed(steps);
    size.min(format.infinity()) | bits & format.sign()
}

/// An odd number of this many binary digits.
pub fn odd(digits: u32, random: &mut Random) -> u64 {
    let top = 1 << (digits - 1);
    (random.bits() % top) | top | 1
}

/// `digits` * 2 ^ `power` with either sign.
pub fn scaled(format: Format, digits: u64, power: i64, random: &mut Random) -> u64 {
    signed(format, exact::nearest(format, false, digits, power), random)
}

/// A significand and a power of two whose product n has a root nearly in the middle of two significands: n is
/// q * q + q and a little, and the square of q + 1/2 is q * q + q + 1/4.
pub fn beside_a_middle(format: Format, random: &mut Random) -> (u64, i64) {
    let width = format.fraction;
    loop {
        let power = width + random.below(2) as u32;
        let little = 2 * random.between(-40, 40);
        let n = |q: u128| (q * q + q).wrapping_add_signed(little.into());
        let mut q = u128::from(random.below(2));
        // A further digit of q makes a further digit of n 0.
        for place in 1..power {
            q |= n(q) & 1 << place;
        }
        // The one above them is free.
        if power == width {
            q |= 1 << width;
        }
        let digits = n(q) >> power;
        if digits >> width == 1 {
            return (digits as u64, power.into());
        }
    }
}

#[cfg(test)]
mod tests {
    use super::*;
    use crate::exact::{BINARY32, BINARY64};

    #[test]
    fn roots_are_beside_a_middle() {
        let mut random = Random::new(1);
        for format in [BINARY32, BINARY64] {
            for _ in 0..1000 {
                let (digits, power) = beside_a_middle(format, &mut random);
                let n = u128::from(digits) << power;
                let q = n.isqrt();
                assert_eq!(
                    [q >> format.fraction, (digits >> format.fraction).into()],
                    [1, 1]
                );
                assert!(n.abs_diff(q * q + q) <= 80, "{digits:x} {power}");
            }
        }
    }
}
