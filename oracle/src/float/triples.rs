//! Three operands of a fused multiply-add, as bits, by what they try.
use crate::{
    exact::{self, Format},
    random::Random,
    shapes::{exponent, normal, nudged, odd, scaled, signed, special, subnormal},
};

pub type Family = fn(Format, &mut Random) -> [u64; 3];

pub const FAMILIES: [Family; 11] = [
    any_bits,
    apart_anyhow,
    near,
    tie_of_sum,
    tie_of_product,
    near_half_a_step,
    cancelled,
    at_largest,
    at_smallest,
    with_special,
    with_subnormal,
];

fn any_bits(_: Format, random: &mut Random) -> [u64; 3] {
    [random.bits(), random.bits(), random.bits()]
}

/// The exponents by which a product of normal numbers can lie above a third one.
pub fn gaps(format: Format) -> std::ops::RangeInclusive<i64> {
    let bias = i64::from(format.bias());
    2 - 3 * bias..=3 * bias - 1
}

/// Normal numbers, the exponents of the factors adding up to `gap` more than the third one's.
pub fn apart(format: Format, gap: i64, random: &mut Random) -> [u64; 3] {
    let high = i64::from(format.bias());
    let low = 1 - high;
    let third = random.between(low.max(2 * low - gap), high.min(2 * high - gap));
    let first = random.between(low.max(third + gap - high), high.min(third + gap - low));
    let second = third + gap - first;
    [first, second, third].map(|exponent| normal(format, exponent, random))
}

fn apart_anyhow(format: Format, random: &mut Random) -> [u64; 3] {
    let gap = random.between(*gaps(format).start(), *gaps(format).end());
    apart(format, gap, random)
}

/// Product and third so near that the digits of one reach those of the other.
fn near(format: Format, random: &mut Random) -> [u64; 3] {
    let reach = 2 * i64::from(format.fraction) + 4;
    let gap = random.between(-reach, reach);
    apart(format, gap, random)
}

/// A product that is an odd number of half steps of the third.
fn tie_of_sum(format: Format, random: &mut Random) -> [u64; 3] {
    let third = exponent(format, random);
    let half = format.fraction / 2;
    let power = third - i64::from(format.fraction) - 1;
    let first = power / 2 + random.between(-30, 30);
    let (a, b) = (
        random.between(1, half.into()),
        random.between(1, half.into()),
    );
    [
        scaled(format, odd(a as u32, random), first, random),
        scaled(format, odd(b as u32, random), power - first, random),
        normal(format, third, random),
    ]
}

/// A product of one digit more than the format keeps, and a third that leaves the tie or breaks it.
fn tie_of_product(format: Format, random: &mut Random) -> [u64; 3] {
    let digits = format.fraction + 2;
    let first = random.between(2, i64::from(digits) - 2) as u32;
    let power = exponent(format, random) / 2;
    let a = scaled(format, odd(first, random), power, random);
    let second = random.between(0, 1) as u32 + digits - first;
    let b = scaled(format, odd(second, random), power, random);
    let c = match random.below(4) {
        0 => signed(format, 0, random),
        1 => signed(format, 1, random),
        _ => scaled(format, 1, 2 * power - random.between(1, 80), random),
    };
    [a, b, c]
}

/// Two significands whose product is a power of two, but for a little.
fn almost_power(format: Format, random: &mut Random) -> (u64, u64) {
    // (2^p + y) * (2^(p+1) - 2y + d) = 2^(2p+1) + d * 2^p - y * (2y - d)
    let d = random.below(4);
    let root = ((d << (format.fraction - 1)) as f64).sqrt() as u64;
    let y = if d == 0 { 1 } else { root } + random.below(4);
    (
        (1 << format.fraction) + y,
        (2 << format.fraction) - 2 * y + d,
    )
}

/// A product that is half a step of the third, but for a little: a product of 2^105 in f64.
fn near_half_a_step(format: Format, random: &mut Random) -> [u64; 3] {
    let (a, b) = almost_power(format, random);
    let power = exponent(format, random) / 4;
    let width = i64::from(format.fraction);
    let off = random.pick(&[0, 0, 0, 0, -1, 1, 2]);
    let third = 2 * power + 2 * width + 1 + width + 1 + off;
    [
        scaled(format, a, power, random),
        scaled(format, b, power, random),
        normal(format, third, random),
    ]
}

/// A third that is the rounded product with the other sign, or next to it.
fn cancelled(format: Format, random: &mut Random) -> [u64; 3] {
    let power = exponent(format, random) / 2;
    let a = normal(format, power, random);
    let b = normal(format, random.between(-3, 3) - power, random);
    let product = exact::fma(format, a, b, 0);
    let steps = random.pick(&[0, 0, 0, -1, 1]);
    [a, b, nudged(format, product ^ format.sign(), steps)]
}

/// A sum at the border of the largest value.
fn at_largest(format: Format, random: &mut Random) -> [u64; 3] {
    let width = i64::from(format.fraction);
    let top = i64::from(format.bias()) + 1;
    let (a, b) = almost_power(format, random);
    let power = random.between(1 - top, 0) / 2;
    let step = top - width - 1;
    if random.coin() {
        let c = scaled(format, 1, step - random.between(-2, 3), random);
        let steps = random.between(-2, 2);
        [
            scaled(format, a, power, random),
            scaled(format, b, top - 2 * width - 1 - power, random),
            nudged(format, c, steps),
        ]
    } else {
        let off = random.between(-2, 2);
        let steps = random.between(-3, -1);
        let largest = nudged(format, format.infinity(), steps);
        [
            scaled(format, a, power, random),
            scaled(format, b, step - 1 + off - 2 * width - 1 - power, random),
            signed(format, largest, random),
        ]
    }
}

/// A sum among the subnormal values or at their borders.
fn at_smallest(format: Format, random: &mut Random) -> [u64; 3] {
    let depth = i64::from(format.depth());
    let lowest = 1 - i64::from(format.bias());
    let product = random.between(-depth - 3, lowest + 3);
    let first = random.between(product / 2 - 20, product / 2 + 20);
    let steps = random.between(-3, 3);
    let c = match random.below(4) {
        0 => signed(format, 0, random),
        1 => signed(format, nudged(format, 1 << format.fraction, steps), random),
        _ => subnormal(format, random),
    };
    [
        normal(format, first, random),
        normal(format, product - first, random),
        c,
    ]
}

fn with_special(format: Format, random: &mut Random) -> [u64; 3] {
    [(); 3].map(|()| {
        if random.coin() {
            special(format, random)
        } else {
            let exponent = exponent(format, random);
            normal(format, exponent, random)
        }
    })
}

/// One or more subnormal operands, the others such that all meet.
fn with_subnormal(format: Format, random: &mut Random) -> [u64; 3] {
    let bias = i64::from(format.bias());
    let width = i64::from(format.fraction);
    let a = subnormal(format, random);
    let exponent = random.between(-width - 3, bias);
    let b = normal(format, exponent, random);
    let c = match random.below(3) {
        0 => subnormal(format, random),
        _ => normal(
            format,
            exponent - bias - random.between(-3, width + 3),
            random,
        ),
    };
    if random.coin() { [a, b, c] } else { [b, a, c] }
}

#[cfg(test)]
mod tests {
    use super::*;
    use crate::exact::{BINARY32, BINARY64};

    #[test]
    fn products_are_powers_of_two_but_for_a_little() {
        let mut random = Random::new(1);
        for format in [BINARY32, BINARY64] {
            for _ in 0..1000 {
                let (a, b) = almost_power(format, &mut random);
                let product = u128::from(a) * u128::from(b);
                let off = product.abs_diff(2 << (2 * format.fraction));
                assert!(off < 64 << (format.fraction / 2), "{a:x} {b:x} {off:x}");
            }
        }
    }
}
