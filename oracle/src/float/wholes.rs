//! The operand of a truncation, as bits, by what it tries: a whole number, one with digits behind the point, or one that is
//! none of those that 64 digits hold.
use super::singles::{Family, any_bits, at_whole_border, at_whole_or_half, in_whole_range};
use crate::{
    exact::{self, Format},
    random::Random,
    shapes::{fraction, nudged, signed, special, specials},
};

pub const FAMILIES: [Family; 8] = [
    any_bits,
    in_whole_range,
    at_whole_or_half,
    at_whole_border,
    whole,
    one_digit_behind,
    power,
    odd_one,
];

/// Special values and NaNs; each power of two, and its neighbours where whole numbers are; of each exponent that they have
/// some, the last, and one with all digits behind the point: all of these with either sign. Then each exponent with each
/// digit behind the point alone.
pub fn listed(format: Format, random: &mut Random) -> Vec<u64> {
    let mut sizes: Vec<u64> = powers(format).map(|power| two_to(format, power)).collect();
    for power in -2..=66 {
        sizes.extend([-1, 1].map(|steps| nudged(format, two_to(format, power), steps)));
    }
    for exponent in 0..u64::BITS {
        let all = (1 << behind(format, exponent)) - 1;
        let last = two_to(format, exponent.into()) | ((1 << format.fraction) - 1);
        let [one, other] = [(); 2].map(|()| whole_with(format, exponent, random));
        sizes.extend([one, last & !all, other | all]);
    }
    let mut listed = [specials(format), nans(format)].concat();
    listed.extend(sizes.iter().flat_map(|&size| [size, size | format.sign()]));
    for exponent in 0..format.fraction {
        for place in 0..behind(format, exponent) {
            listed.push(whole_with(format, exponent, random) | 1 << place);
        }
    }
    listed
}

/// Quiet ones and such as signal, of either sign, with few digits and with all.
fn nans(format: Format) -> Vec<u64> {
    let quiet = format.nan();
    let all = quiet - 1;
    let sizes = [quiet, quiet + 1, quiet | all, format.infinity() + 1, all];
    let both_signs = sizes.map(|size| [size, size | format.sign()]);
    both_signs.concat()
}

/// The powers of two that the format has.
fn powers(format: Format) -> std::ops::RangeInclusive<i64> {
    -i64::from(format.depth())..=i64::from(format.bias())
}

fn two_to(format: Format, power: i64) -> u64 {
    exact::nearest(format, false, 1, power)
}

/// How many digits of a number with this exponent stand behind the point.
const fn behind(format: Format, exponent: u32) -> u32 {
    format.fraction.saturating_sub(exponent)
}

fn whole_with(format: Format, exponent: u32, random: &mut Random) -> u64 {
    let behind = behind(format, exponent);
    two_to(format, exponent.into()) | fraction(format, random) >> behind << behind
}

/// A whole number below 2^64, seldom a negative one.
fn whole(format: Format, random: &mut Random) -> u64 {
    let exponent = random.below(u64::BITS.into()) as u32;
    let size = whole_with(format, exponent, random);
    match random.below(8) {
        0 => size | format.sign(),
        _ => size,
    }
}

/// A whole number and one digit behind its point.
fn one_digit_behind(format: Format, random: &mut Random) -> u64 {
    let exponent = random.below(format.fraction.into()) as u32;
    let place = random.below(behind(format, exponent).into());
    whole_with(format, exponent, random) | 1 << place
}

fn power(format: Format, random: &mut Random) -> u64 {
    let (low, high) = powers(format).into_inner();
    let power = random.between(low, high);
    let size = nudged(format, two_to(format, power), random.between(-1, 1));
    signed(format, size, random)
}

/// A special value or a NaN.
fn odd_one(format: Format, random: &mut Random) -> u64 {
    if random.coin() {
        special(format, random)
    } else {
        random.pick(&nans(format))
    }
}
