//! The operand of a root, as bits, by what it tries.
use super::singles::{Family, any_bits};
use crate::{
    exact::{self, Format},
    random::Random,
    shapes::{
        beside_a_middle, exponent, normal, nudged, odd, positive, special, specials, subnormal,
    },
};

pub const FAMILIES: [Family; 8] = [
    any_bits, any_size, any_size, square, square, middle, middle, faint,
];

/// Its special values; of each exponent the first number, the last and some other; the subnormal numbers of each
/// length likewise.
pub fn listed(format: Format, random: &mut Random) -> Vec<u64> {
    let mut all = specials(format);
    for field in 1..=2 * u64::from(format.bias()) {
        let first = field << format.fraction;
        let some = random.below(1 << format.fraction);
        all.extend([first, first + some, first + (1 << format.fraction) - 1]);
    }
    for length in 1..=format.fraction {
        let first = 1 << (length - 1);
        all.extend([first, first + random.below(first), 2 * first - 1]);
    }
    all
}

fn any_size(format: Format, random: &mut Random) -> u64 {
    let exponent = exponent(format, random);
    positive(format, normal(format, exponent, random))
}

/// A square that the format has, or a number next to one.
fn square(format: Format, random: &mut Random) -> u64 {
    let most = i64::from(format.fraction / 2) + 1;
    let root = odd(random.between(1, most) as u32, random);
    let depth = i64::from(format.depth());
    let half = random.between(-depth, i64::from(format.bias()) + 1 - 2 * most) / 2;
    let square = exact::nearest(format, false, root * root, 2 * half);
    nudged(format, square, random.between(-1, 1))
}

/// A number whose root is nearly in the middle between two neighbours.
fn middle(format: Format, random: &mut Random) -> u64 {
    let (digits, power) = beside_a_middle(format, random);
    let most = (i64::from(format.bias()) - 2 * i64::from(format.fraction) - 1) / 2;
    let half = random.between(-most - 2 * i64::from(format.fraction), most);
    exact::nearest(format, false, digits, power + 2 * half)
}

/// A special value or a subnormal one.
fn faint(format: Format, random: &mut Random) -> u64 {
    match random.below(4) {
        0 => special(format, random),
        _ => positive(format, subnormal(format, random)),
    }
}
