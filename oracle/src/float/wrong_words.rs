//! Wrong words of a truncation. Each is right but for one fact, and the lists must show it; and every kind of number that
//! the lists must have of truncations and of their words.
use super::{CASE, Case, Float, Operation, cases};
use crate::{
    bits::single,
    exact::{self, BINARY32, CUT, EXACT},
    numbers::{above, below},
    random::Random,
    replay::Replay,
};
use std::collections::{BTreeMap, BTreeSet};

const TWO_TO_64: f32 = 18_446_744_073_709_551_616.0;

fn right(x: f32) -> u32 {
    exact::exactness(BINARY32, x.to_bits().into())
}

/// This word here, and elsewhere the right one.
fn but(x: f32, here: bool, word: u32) -> u32 {
    if here { word } else { right(x) }
}

const fn word(is_exact: bool) -> u32 {
    if is_exact { EXACT } else { CUT }
}

/// What stands behind the point, of a number from 0 on.
fn fraction(x: f32) -> f32 {
    if (0.0..TWO_TO_64).contains(&x) {
        x.fract()
    } else {
        0.0
    }
}

fn signals(x: f32) -> bool {
    x.is_nan() && x.to_bits() & 1 << 22 == 0
}

type Wrong = (&'static str, fn(f32) -> u32);

const ALL: [Wrong; 46] = [
    ("always exact", |_| EXACT),
    ("always cut", |_| CUT),
    ("the two exchanged", |x| EXACT + CUT - right(x)),
    ("counted from 0", |x| right(x) - 1),
    ("cut for 0", |x| but(x, x.to_bits() == 0, CUT)),
    ("cut for -0", |x| but(x, x.to_bits() == 1 << 31, CUT)),
    ("cut for 1", |x| but(x, x == 1.0, CUT)),
    ("cut for odd numbers", |x| but(x, x % 2.0 == 1.0, CUT)),
    ("cut for even numbers", |x| but(x, x % 2.0 == 0.0, CUT)),
    ("cut from 2^16 on", |x| but(x, x >= 65_536.0, CUT)),
    ("cut from 2^23 on", |x| but(x, x >= 8_388_608.0, CUT)),
    ("cut above 2^24", |x| but(x, x > 16_777_216.0, CUT)),
    ("cut from 2^53 on", |x| {
        but(x, x >= TWO_TO_64 / 2_048.0, CUT)
    }),
    ("given back as i32", |x| word(x as i32 as f32 == x)),
    ("given back as u32", |x| word(x as u32 as f32 == x)),
    ("given back as i64", |x| word(x as i64 as f32 == x)),
    ("given back as a float", |x| word(x as u64 as f32 == x)),
    ("given back as i128", |x| word(x as i128 as f32 == x)),
    ("cut from 2^63 on", |x| but(x, x >= TWO_TO_64 / 2.0, CUT)),
    ("cut just below 2^64", |x| {
        but(x, x == below(TWO_TO_64), CUT)
    }),
    ("exact at 2^64", |x| but(x, x == TWO_TO_64, EXACT)),
    ("exact just above 2^64", |x| {
        but(x, x == above(TWO_TO_64), EXACT)
    }),
    ("exact above 2^64", |x| {
        but(x, x > TWO_TO_64 && x.is_finite(), EXACT)
    }),
    ("exact for the largest", |x| but(x, x == f32::MAX, EXACT)),
    ("exact for infinities", |x| but(x, x.is_infinite(), EXACT)),
    ("exact for infinity", |x| but(x, x == f32::INFINITY, EXACT)),
    ("exact for -infinity", |x| {
        but(x, x == f32::NEG_INFINITY, EXACT)
    }),
    ("exact for NaN", |x| but(x, x.is_nan(), EXACT)),
    ("exact for NaNs that signal", |x| but(x, signals(x), EXACT)),
    ("exact for quiet NaNs", |x| {
        but(x, x.is_nan() && !signals(x), EXACT)
    }),
    ("exact for negative NaNs", |x| {
        but(x, x.is_nan() && x.is_sign_negative(), EXACT)
    }),
    ("exact for -1", |x| but(x, x == -1.0, EXACT)),
    ("exact just below -1", |x| but(x, x == below(-1.0), EXACT)),
    ("exact just above -1", |x| but(x, x == above(-1.0), EXACT)),
    ("exact for a negative fraction", |x| {
        but(x, -1.0 < x && x < 0.0, EXACT)
    }),
    ("exact for negative whole numbers", |x| {
        but(x, x < 0.0 && x == x.trunc() && x.is_finite(), EXACT)
    }),
    ("exact for negative numbers", |x| but(x, x < 0.0, EXACT)),
    ("the size's word", |x| right(x.abs())),
    ("exact below 1", |x| but(x, 0.0 < x && x < 1.0, EXACT)),
    ("exact for subnormal numbers", |x| {
        but(x, x.is_subnormal(), EXACT)
    }),
    ("exact for the smallest", |x| {
        but(x, x.to_bits() == 1, EXACT)
    }),
    ("the fraction isn't looked at", |x| {
        but(x, fraction(x) > 0.0, EXACT)
    }),
    ("exact below a half", |x| {
        but(x, fraction(x) < 0.5, right(x.floor()))
    }),
    ("exact from a half on", |x| {
        but(x, fraction(x) >= 0.5, right(x.floor()))
    }),
    ("only the first digit behind the point is looked at", |x| {
        but(x, fraction(x) < 0.5 && x < TWO_TO_64, right(x.trunc()))
    }),
    ("the last digit isn't looked at", |x| {
        right(f32::from_bits(x.to_bits() & !1))
    }),
];

/// The numbers that a list has of an operation.
fn taken(list: &[u8], operation: Operation) -> Vec<f32> {
    let cases = list.chunks_exact(CASE).filter_map(Case::read);
    let of_it = cases.filter(|case| case.operation == operation);
    of_it.map(|case| single(case.operands[0])).collect()
}

fn new_numbers(operation: Operation, seed: u64) -> Vec<f32> {
    let mut random = Random::new(seed);
    let case = |_| cases::new(operation, &mut random);
    let cases = (0..100_000).map(case);
    cases.map(|case| single(case.operands[0])).collect()
}

/// Each list by its name, of truncations and of their words.
fn lists() -> [(&'static str, Vec<f32>); 4] {
    let stored = Float.stored();
    [
        ("stored words", taken(&stored, Operation::Exactness)),
        ("stored truncations", taken(&stored, Operation::Truncated)),
        ("new words", new_numbers(Operation::Exactness, 1)),
        ("new truncations", new_numbers(Operation::Truncated, 2)),
    ]
}

#[test]
fn each_list_tells_each_apart() {
    for (list, numbers) in lists() {
        for (name, wrong) in ALL {
            let differs = numbers.iter().any(|&x| wrong(x) != right(x));
            assert!(differs, "{list} don't tell apart: {name}");
        }
    }
}

/// Of each exponent that a number below 2^64 has, a whole number that is called cut; and with each digit behind the point
/// one in which it is the only one, so that a word that doesn't look at it is wrong.
#[test]
fn each_exponent_and_each_digit_is_told_apart() {
    for (list, numbers) in lists() {
        let (mut whole, mut digits) = (BTreeSet::new(), BTreeSet::new());
        for x in numbers.into_iter().filter(|x| (1.0..TWO_TO_64).contains(x)) {
            let exponent = (x.to_bits() >> 23) - 127;
            let behind = x.to_bits() & 0x007f_ffff & ((1 << 23) - 1) >> exponent.min(23);
            if behind == 0 {
                whole.insert(exponent);
            } else if behind.is_power_of_two() {
                digits.insert((exponent, behind));
            }
        }
        assert_eq!([whole.len(), digits.len()], [64, 276], "{list}");
    }
}

/// What a number is to a truncation. Of negative numbers the size is.
fn kind(size: f32) -> &'static str {
    match size {
        _ if signals(size) => "NaN that signals",
        _ if size.is_nan() => "quiet NaN",
        0.0 => "zero",
        1.0 => "one",
        TWO_TO_64 => "2^64",
        f32::INFINITY => "infinity",
        _ if size > TWO_TO_64 => "above 2^64",
        _ if size == below(TWO_TO_64) => "just below 2^64",
        _ if size.is_subnormal() => "subnormal",
        _ if size < 1.0 => "below one",
        _ if size.fract() == 0.5 => "with a half",
        _ if size.fract() != 0.0 => "with another fraction",
        _ if size > 16_777_216.0 => "whole above 2^24",
        _ if size >= 8_388_608.0 => "whole from 2^23 on",
        _ => "whole below 2^23",
    }
}

/// Said where it is run with --nocapture.
#[test]
fn numbers_of_each_kind_are_there() {
    for (list, numbers) in lists() {
        let mut counts = BTreeMap::<_, u64>::new();
        for x in numbers {
            let kind = (kind(x.abs()), x.is_sign_negative());
            *counts.entry(kind).or_default() += 1;
        }
        println!("{list}: {counts:?}");
        assert_eq!(counts.len(), 2 * 15, "{list}");
        assert!(counts.values().all(|&count| count > 1), "{list}");
    }
}
