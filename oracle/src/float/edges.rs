//! Three operands of a fused multiply-add, as bits, whose sum is at an edge of rounding: in the middle of two
//! neighbours or beside it by less than a wider sum keeps, at the borders of the subnormal and of the finite values,
//! or nearly nothing.
use super::triples::Family;
use crate::{
    exact::{self, Format},
    random::Random,
    shapes::{exponent, normal, nudged, odd, scaled, signed},
};

pub const FAMILIES: [Family; 9] = [
    above_half_steps,
    above_deep_half_steps,
    completing_a_middle,
    among_subnormals,
    among_subnormals,
    at_overflow,
    at_a_border,
    cancelled_among_subnormals,
    cancelled_exactly,
];

/// Two significands each, whose product is 4^h - 1, 4^h and 4^h + 1, of an odd h.
pub const fn beside_a_power(h: u32) -> [[u64; 2]; 3] {
    let (one, root) = (1 << h, 1 << h.div_ceil(2));
    [
        [one + 1, one - 1],
        [one, one],
        [one - root + 1, one + root + 1],
    ]
}

/// Two significands and a power of two that their product is an odd number of, or but for a little.
fn odd_product(format: Format, random: &mut Random) -> ([u64; 2], i64) {
    let width = i64::from(format.fraction);
    let h = 2 * random.between(width / 3, (width - 1) / 2) + 1;
    let pair = random.pick(&beside_a_power(h as u32));
    let most = (width - h).max(1);
    let pair = pair.map(|one| one * odd(random.between(1, most) as u32, random));
    (pair, 2 * h)
}

fn product([a, b]: [u64; 2]) -> u128 {
    u128::from(a) * u128::from(b)
}

/// Factors whose significands have the product that these have, times 2 ^ `power`.
fn factors(format: Format, [a, b]: [u64; 2], power: i64, random: &mut Random) -> [u64; 2] {
    let first = power / 2 + random.between(-20, 20);
    [
        scaled(format, a, first, random),
        scaled(format, b, power - first, random),
    ]
}

/// A product that is an odd number of half steps of the third, or but for a little.
fn above_half_steps(format: Format, random: &mut Random) -> [u64; 3] {
    let third = exponent(format, random);
    let half_step = third - i64::from(format.fraction) - 1;
    let (pair, places) = odd_product(format, random);
    let [a, b] = factors(format, pair, half_step - places, random);
    [a, b, normal(format, third, random)]
}

/// The factor of so many digits that makes `product` of an odd one, counted in the same digits.
const fn factor_of(product: u64, odd: u64, digits: u32) -> u64 {
    let mut inverse = odd;
    let mut right = 3;
    while right < u64::BITS {
        inverse = inverse.wrapping_mul(2u64.wrapping_sub(odd.wrapping_mul(inverse)));
        right *= 2;
    }
    product.wrapping_mul(inverse) & ((1 << digits) - 1)
}

/// Two significands of all digits, whose product ends in the last `digits` ones of what is drawn.
fn ending(
    format: Format,
    digits: u32,
    random: &mut Random,
    drawn: impl Fn(&mut Random) -> u64,
) -> [u64; 2] {
    loop {
        let a = odd(format.fraction + 1, random);
        let b = factor_of(drawn(random), a, digits);
        if b >> format.fraction == 1 {
            return [a, b];
        }
    }
}

/// A product of twice the digits, the last of which lie below those of a wider sum: it ends beside half a step of the
/// third.
fn above_deep_half_steps(format: Format, random: &mut Random) -> [u64; 3] {
    let half_step = format.fraction + random.between(6, 8) as u32;
    let beside = 2 << (half_step - format.fraction - 6);
    let pair = ending(format, half_step + 1, random, |random| {
        (1u64 << half_step).wrapping_add_signed(random.between(-beside, beside))
    });
    let third = exponent(format, random);
    let power = third - i64::from(format.fraction + 1 + half_step);
    let [a, b] = factors(format, pair, power, random);
    [a, b, normal(format, third, random)]
}

/// A product of twice the digits, and a smaller third that completes it to a middle, or but for a little.
fn completing_a_middle(format: Format, random: &mut Random) -> [u64; 3] {
    let width = format.fraction;
    let behind = random.between(4, 16);
    let whole = 1 + random.below((1 << (i64::from(width) - behind)) - 1);
    let little = random.pick(&[0, 0, -1, -1, 1, 1, 2, -3, 5]);
    let third = (whole << behind).saturating_add_signed(little);
    let half_step = width - random.below(2) as u32;
    let same_sign = random.coin();
    let middle = 1u64 << half_step;
    let end = if same_sign {
        middle.wrapping_sub(whole)
    } else {
        middle + whole
    };
    let pair = loop {
        let pair = ending(format, width + 1, random, |random| {
            end ^ random.below(2) << (half_step + 1)
        });
        if product(pair).ilog2() == half_step + width + 1 {
            break pair;
        }
    };
    let high = i64::from(format.bias()) - 2 * i64::from(width) - 2;
    let power = random.between(16 - i64::from(format.depth()), high);
    let [a, b] = factors(format, pair, power, random);
    let negative = ((a ^ b) & format.sign() != 0) == same_sign;
    [
        a,
        b,
        exact::nearest(format, negative, third, power - behind),
    ]
}

/// A subnormal number of any length, a zero or a barely normal number.
fn faint(format: Format, random: &mut Random) -> u64 {
    let length = random.between(0, i64::from(format.fraction) + 2);
    let first = 1u64 << length >> 1;
    let size = match random.below(4) {
        0 => nudged(format, first, random.between(-2, 2)),
        _ => first + random.below(first.max(1)),
    };
    signed(format, size, random)
}

/// A product that is an odd number of halves of the smallest value, or but for a little, and a third so small that
/// these are its half steps too.
fn among_subnormals(format: Format, random: &mut Random) -> [u64; 3] {
    let (pair, places) = odd_product(format, random);
    let off = random.pick(&[0, 0, 0, 0, 0, 0, -1, 1]);
    let half = -i64::from(format.depth()) - 1;
    let [a, b] = factors(format, pair, half + off - places, random);
    [a, b, faint(format, random)]
}

/// A sum that is half a step above the largest value, or but for a little, or some half steps beside that.
fn at_overflow(format: Format, random: &mut Random) -> [u64; 3] {
    let (pair, places) = odd_product(format, random);
    // Where a little is missing, the number of half steps is cut to an even one, and half of it stays.
    let steps = (product(pair) >> places >> 1) as i64;
    let half_step = i64::from(format.bias() - format.fraction) - 1;
    let [a, b] = factors(format, pair, half_step - places, random);
    let off = random.pick(&[0, 0, 0, -1, 1]);
    let c = nudged(format, format.infinity() - 1, off - steps);
    [a, b, c | (a ^ b) & format.sign()]
}

/// A product and the nearest third that leaves a value at a border of it, or a neighbour of that third.
fn at_a_border(format: Format, random: &mut Random) -> [u64; 3] {
    let lowest = 1 << format.fraction;
    let border = random.pick(&[1, 2, lowest - 1, lowest, lowest + 1, format.infinity() - 1]);
    let border_exponent = (border >> format.fraction).max(1) as i64 - i64::from(format.bias());
    let width = i64::from(format.fraction);
    let above = if border < format.one() { width + 3 } else { 1 };
    let product = border_exponent + random.between(-width - 3, above);
    let first = product / 2 + random.between(-20, 20);
    let a = normal(format, first, random);
    let b = normal(format, product - first, random);
    let c = exact::fma(format, a ^ format.sign(), b, signed(format, border, random));
    let steps = random.pick(&[0, 0, -1, 1]);
    [a, b, nudged(format, c, steps)]
}

/// A third that is the rounded product with the other sign, or next to it: what is left is subnormal.
fn cancelled_among_subnormals(format: Format, random: &mut Random) -> [u64; 3] {
    let lowest = 1 - i64::from(format.bias());
    let width = i64::from(format.fraction);
    let product = random.between(lowest - width, lowest + width + 2);
    let first = product / 2 + random.between(-20, 20);
    let a = normal(format, first, random);
    let b = normal(format, product - first, random);
    let steps = random.pick(&[0, 0, 0, -1, 1]);
    let c = exact::product(format, a, b) ^ format.sign();
    [a, b, nudged(format, c, steps)]
}

/// A product of no more digits than the format keeps, and a third that is it with the other sign, or next to it.
fn cancelled_exactly(format: Format, random: &mut Random) -> [u64; 3] {
    let width = i64::from(format.fraction);
    let digits = random.between(1, width);
    let pair = [digits, width + 1 - digits].map(|digits| odd(digits as u32, random));
    let lowest = -i64::from(format.depth());
    let power = random.between(lowest, i64::from(format.bias()) - width - 1);
    let [a, b] = factors(format, pair, power, random);
    let steps = random.pick(&[0, 0, 0, 0, 0, 0, -1, 1]);
    let c = exact::product(format, a, b) ^ format.sign();
    [a, b, nudged(format, c, steps)]
}

#[cfg(test)]
mod tests {
    use super::*;
    use crate::exact::{BINARY32, BINARY64};

    #[test]
    fn products_are_beside_a_power() {
        for h in (3..=51).step_by(2) {
            let power = 1u128 << (2 * h);
            let wanted = [power - 1, power, power + 1];
            assert_eq!(beside_a_power(h).map(product), wanted, "{h}");
        }
    }

    #[test]
    fn products_end_as_drawn() {
        let mut random = Random::new(1);
        for format in [BINARY32, BINARY64] {
            for _ in 0..1000 {
                let end = random.bits() >> (56 - format.fraction);
                let [a, b] = ending(format, format.fraction + 1, &mut random, |random| {
                    end ^ random.below(2) << format.fraction
                });
                let differs = a.wrapping_mul(b) ^ end;
                assert_eq!(differs & ((1 << format.fraction) - 1), 0, "{a:x} {b:x}");
            }
        }
    }
}
