//! The three sums by hand, and what the stored list has at edges of rounding, by kind.
use super::{
    Operation,
    by_f64::{LOWEST, Sum},
    edge_list,
    wrong::as_musl,
};
use crate::bits::{bits32, single};
use std::{cmp::Ordering, collections::BTreeMap};

/// In whole units of the last digit that product or third has, beside the middle between two f32.
#[test]
fn rows_by_hand() {
    // 2^22 + 1 smallest values of 2^48 units each, and a product that is 2 units less than half of one.
    assert_eq!(0x80_0001u64 * 0xff_fffe, (1 << 47) - 2);
    // Below the middle by one unit of 2^-1.
    let second = ((0xfc_57a7u64 * 0xec_cb8a) << 6) + 0xd4_be7f;
    assert_eq!(second, (0xe9_696f << 30) + (1 << 29) - 1);
    // Above the middle by one unit of 1.
    let third = 0xa6_336fu64 * 0x84_8b8f + (0xbb_fdc2 << 30);
    assert_eq!(third, (0xbd_55f6 << 30) + (1 << 29) + 1);
    let answers = [0x0040_0001, 0x59e9_696f, 0x5a3d_55f7];
    let sums = edge_list::ROUNDED_INTO_A_MIDDLE.map(Sum::of);
    assert_eq!(sums.each_ref().map(|sum| sum.right), answers);
    let rust = edge_list::ROUNDED_INTO_A_MIDDLE.map(|operands| {
        let [a, b, c] = operands.map(single);
        bits32(a.mul_add(b, c))
    });
    assert_eq!(rust, answers);
}

/// A sum in f64 that is narrowed is wrong at each, musl's `fmaf` at the first.
#[test]
fn what_a_sum_in_f64_makes_of_them() {
    let sums = edge_list::ROUNDED_INTO_A_MIDDLE.map(Sum::of);
    assert!(sums.iter().all(Sum::is_any_middle));
    let narrowed = sums.each_ref().map(Sum::narrowed);
    assert_eq!(narrowed, [0x0040_0002, 0x59e9_6970, 0x5a3d_55f6]);
    let musl = sums.each_ref().map(as_musl);
    assert_eq!(musl, [0x0040_0002, 0x59e9_696f, 0x5a3d_55f7]);
}

/// A middle of normal numbers: what was lost of the sum's size, whether of the third, whether the last digit that
/// stays is odd, and whether the sum is negative.
type Middle = (Ordering, bool, bool, bool);

fn middle(sum: &Sum) -> Middle {
    let of_third = sum.lost().is_ne() && sum.third.abs() < sum.product.abs();
    let odd = sum.down() % 2 == 1;
    (sum.lost_size(), of_third, odd, sum.sum.is_sign_negative())
}

fn sums() -> impl Iterator<Item = Sum> {
    let cases = edge_list::cases().into_iter();
    cases.map(|case| {
        assert_eq!(case.operation, Operation::Fma32);
        Sum::of(case.operands)
    })
}

fn counted<Kind: Ord>(kinds: impl Iterator<Item = Kind>) -> BTreeMap<Kind, u64> {
    let mut counts = BTreeMap::new();
    for kind in kinds {
        *counts.entry(kind).or_default() += 1;
    }
    counts
}

#[test]
fn middles_of_normal_numbers_of_each_kind_are_there() {
    let counts = counted(sums().filter(Sum::is_middle).map(|sum| middle(&sum)));
    println!("{counts:?}");
    let lost = [(Ordering::Less, false), (Ordering::Less, true)];
    let above = [(Ordering::Greater, false), (Ordering::Greater, true)];
    for (lost, of_third) in [&lost[..], &above, &[(Ordering::Equal, false)]].concat() {
        for (odd, negative) in [(false, false), (false, true), (true, false), (true, true)] {
            let kind = (lost, of_third, odd, negative);
            assert!(counts.get(&kind) > Some(&10), "{kind:?}");
        }
    }
}

/// At half the smallest value and at each exponent of subnormal numbers; digits are lost where the sum is long enough.
#[test]
fn middles_of_subnormal_numbers_of_each_exponent_are_there() {
    let subnormal = sums().filter(|sum| sum.is_any_middle() && sum.exponent() < LOWEST);
    let kind = |sum: Sum| (sum.exponent(), sum.lost_size(), sum.sum.is_sign_negative());
    let counts = counted(subnormal.map(kind));
    println!("{counts:?}");
    for exponent in -150..LOWEST {
        for lost in [Ordering::Less, Ordering::Equal, Ordering::Greater] {
            let there = |negative| counts.get(&(exponent, lost, negative)) > Some(&1);
            let can_be = lost.is_eq() || exponent >= -144;
            assert_eq!([false, true].map(there), [can_be; 2], "{exponent} {lost:?}");
        }
    }
}

/// The sum in f64 is the border of the infinities, and the exact one is it or beside it.
#[test]
fn the_border_of_the_infinities_is_there() {
    let border = f64::from(f32::MAX) + 2f64.powi(103);
    let at_border = sums().filter(|sum| sum.sum.abs() == border);
    let counts = counted(at_border.map(|sum| (sum.lost_size(), sum.sum.is_sign_negative())));
    println!("{counts:?}");
    assert_eq!(counts.len(), 6);
    assert!(counts.values().all(|&count| count > 10));
}

/// Nothing is left of a product of either sign; a zero on a zero.
#[test]
fn sums_that_are_nothing_are_there() {
    let nothing = sums().filter(|sum| sum.sum == 0.0);
    let kind = |sum: Sum| {
        let negative = [sum.product, sum.third].map(f64::is_sign_negative);
        (sum.product == 0.0, negative, sum.right)
    };
    let counts = counted(nothing.map(kind));
    println!("{counts:?}");
    let wanted = [
        (false, [false, true], 0),
        (false, [true, false], 0),
        (true, [false, false], 0),
        (true, [false, true], 0),
        (true, [true, false], 0),
        (true, [true, true], 0x8000_0000),
    ];
    assert!(counts.keys().eq(&wanted));
    assert!(counts.values().all(|&count| count > 5));
    let opposite = |sum: &Sum| sum.product.is_sign_negative() != sum.third.is_sign_negative();
    let cancelled = edge_list::cancelled().into_iter().map(Sum::of);
    assert!(cancelled.filter(opposite).all(|sum| sum.is_zero()));
}
