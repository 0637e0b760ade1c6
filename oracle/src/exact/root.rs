//! The nearest value to a root, by squares of whole numbers.
use super::{Finite, Format, Value};

/// The value of this format nearest to the root. A zero is its own root, its sign too; below zero there is none.
pub fn root(format: Format, bits: u64) -> u64 {
    let value = format.value(bits);
    match value {
        Value::Nan => format.nan(),
        _ if value.is_zero() => bits,
        _ if value.is_negative() => format.nan(),
        Value::Infinite { .. } => bits,
        Value::Finite(value) => of_positive(format, &value),
    }
}

/// The number is n * 4 ^ `half`, n being so large that its root has as many digits as a significand. `below`
/// or the next whole number is the nearest to it. What lies in the middle of the two has the square
/// below * below + below + 1/4, which is no whole number, so that no n is a tie.
fn of_positive(format: Format, value: &Finite) -> u64 {
    let width = i64::from(format.fraction);
    let depth = i64::from(format.depth());
    let missing = width + 1 - i64::from(u64::BITS - value.digits.leading_zeros());
    let power = i64::from(value.shift) - missing - depth;
    let more = width + (power - width).rem_euclid(2);
    let n = u128::from(value.digits) << (missing + more);
    let half = (power - more) / 2;
    let below = largest_within(n, format.fraction);
    let up = n > square(below) + u128::from(below);
    // The first digit of `below` is one step of the exponent.
    ((half + depth) as u64 * (1 << format.fraction)) + below + u64::from(up)
}

fn square(of: u64) -> u128 {
    u128::from(of) * u128::from(of)
}

/// The largest whole number whose square is at most n, with no digit above `top`.
fn largest_within(n: u128, top: u32) -> u64 {
    let mut root = 0;
    for place in (0..=top).rev() {
        let tried = root | 1 << place;
        if square(tried) <= n {
            root = tried;
        }
    }
    root
}

#[cfg(test)]
mod tests {
    use super::{
        super::{BINARY32, BINARY64},
        *,
    };
    use crate::{
        bits::{bits32, bits64, double, single},
        random::Random,
        shapes::specials,
    };

    fn as_rust(numbers: impl IntoIterator<Item = u64>) {
        for bits in numbers {
            assert_eq!(
                root(BINARY32, bits),
                bits32(single(bits).sqrt()),
                "{bits:08x}"
            );
        }
    }

    /// Squares, both zeros, what has no root, the ends of the subnormal and of the finite numbers; and roots just
    /// below a middle, of the neighbours of 1.
    #[test]
    fn rows_by_hand() {
        let rows = [
            [0x4080_0000, 0x4000_0000],
            [0x4110_0000, 0x4040_0000],
            [0x3e80_0000, 0x3f00_0000],
            [0x4000_0000, 0x3fb5_04f3],
            [0x0000_0000, 0x0000_0000],
            [0x8000_0000, 0x8000_0000],
            [0x8000_0001, 0x7fc0_0000],
            [0xbf80_0000, 0x7fc0_0000],
            [0xff80_0000, 0x7fc0_0000],
            [0x7f80_0000, 0x7f80_0000],
            [0xffc0_0001, 0x7fc0_0000],
            [0x7f80_0001, 0x7fc0_0000],
            [0x0000_0001, 0x1a35_04f3],
            [0x0000_0002, 0x1a80_0000],
            [0x007f_ffff, 0x1fff_ffff],
            [0x0080_0000, 0x2000_0000],
            [0x7f7f_ffff, 0x5f7f_ffff],
            [0x3f80_0000, 0x3f80_0000],
            [0x3f80_0001, 0x3f80_0000],
            [0x3f80_0002, 0x3f80_0001],
            [0x3f7f_ffff, 0x3f7f_ffff],
        ];
        for [of, answer] in rows {
            assert_eq!(root(BINARY32, of), answer, "{of:08x}");
        }
    }

    /// Every significand, with an even exponent and with an odd one: roots of other exponents have these digits too.
    #[test]
    fn two_binades_as_rust() {
        as_rust(0x3f80_0000..0x4080_0000);
    }

    #[test]
    fn other_numbers_as_rust() {
        let mut random = Random::new(1);
        as_rust(specials(BINARY32));
        as_rust((0..1 << 16).map(|high| high << 16 | 0x1234));
        as_rust((0..0x0080_0000).step_by(7));
        as_rust((0..23).flat_map(|place| [1 << place, (1 << place) - 1, (1 << place) + 1]));
        as_rust((0..1_000_000).map(|_| random.bits32().into()));
    }

    /// The definition is one over the width.
    #[test]
    fn doubles_as_rust() {
        let mut random = Random::new(2);
        let drawn = (0..500_000).map(|_| random.bits());
        for bits in drawn.chain(specials(BINARY64)) {
            let rust = bits64(double(bits).sqrt());
            assert_eq!(root(BINARY64, bits), rust, "{bits:016x}");
        }
    }
}
