//! Wrong ways to a fused multiply-add in f32 by a sum in f64. Each is right but for one fact, and the lists must show it.
use super::{
    CASE, Case, Float, Operation,
    by_f64::{CUT, HALF, HIGHEST, LOWEST, Sum},
    cases, edge_list,
};
use crate::{
    bits::{bits32, single},
    exact::{self, BINARY32},
    random::Random,
    replay::Replay,
};
use std::cmp::Ordering;

const SIGN: u64 = BINARY32.sign();
const INFINITY: u64 = BINARY32.infinity();
const LARGEST: u64 = INFINITY - 1;

/// The C library musl's `fmaf`, version 1.2: no care for middles of subnormal numbers.
pub fn as_musl(of: &Sum) -> u64 {
    let (sum, product, third) = (of.sum, of.product, of.third);
    let middle = sum.to_bits() % (2 * HALF) == HALF;
    if !middle || !sum.is_finite() || (sum - product == third && sum - third == product) {
        return of.narrowed();
    }
    let negative = sum.is_sign_negative();
    let lost = if negative == (third > product) {
        product - sum + third
    } else {
        third - sum + product
    };
    let away = negative == (lost < 0.0);
    let bits = sum.to_bits();
    bits32(f64::from_bits(if away { bits + 1 } else { bits - 1 }) as f32)
}

type Wrong = (&'static str, fn(&Sum) -> u64);

const ALL: [Wrong; 34] = [
    ("the sum in f64 narrowed", Sum::narrowed),
    ("musl's", as_musl),
    ("the product rounded to f32 first", |of| {
        let [a, b, c] = of.operands.map(single);
        bits32(a * b + c)
    }),
    ("a middle goes up", |of| of.but(of.is_middle(), of.up())),
    ("a middle goes down", |of| of.but(of.is_middle(), of.down())),
    ("a middle goes to even although digits were lost", |of| {
        of.but(of.is_middle(), of.middle(Ordering::Equal))
    }),
    ("a middle goes to odd where nothing was lost", |of| {
        let odd = of.up() ^ of.down() ^ of.narrowed();
        of.but(of.is_middle() && of.lost().is_eq(), odd)
    }),
    ("exactness looked at in the product only", |of| {
        let exact = of.sum - of.third == of.product;
        of.but(of.is_middle() && exact, of.narrowed())
    }),
    ("exactness looked at in the third only", |of| {
        let exact = of.sum - of.product == of.third;
        of.but(of.is_middle() && exact, of.narrowed())
    }),
    ("a lost part counts for the other side", |of| {
        of.but(of.is_middle(), of.middle(of.lost_size().reverse()))
    }),
    ("a lost part isn't turned in a negative sum", |of| {
        of.but(of.is_middle(), of.middle(of.lost()))
    }),
    ("a lost part above isn't seen", |of| {
        let above = of.is_middle() && of.lost_size().is_gt();
        of.but(above, of.narrowed())
    }),
    ("a lost part below isn't seen", |of| {
        let below = of.is_middle() && of.lost_size().is_lt();
        of.but(below, of.narrowed())
    }),
    ("below the normal numbers the sum in f64 narrowed", |of| {
        of.but(of.exponent() < LOWEST, of.narrowed())
    }),
    ("from 2^127 on the sum in f64 narrowed", |of| {
        of.but(of.exponent() >= HIGHEST, of.narrowed())
    }),
    ("from 2^-127 on cut", |of| {
        of.but(of.exponent() == LOWEST - 1, of.up())
    }),
    ("all below the normal numbers cut", |of| {
        of.but(of.exponent() < LOWEST, of.up())
    }),
    ("up to 2^129 cut", |of| {
        of.but(of.exponent() == HIGHEST + 1, of.up())
    }),
    ("an infinity cut", |of| {
        of.but(of.sum.is_infinite(), of.up())
    }),
    ("28 digits cut", |of| {
        of.but(of.is_normal(), of.cut(HALF / 2, CUT - 1))
    }),
    ("30 digits cut", |of| {
        of.but(of.is_normal(), of.cut(HALF * 2, CUT + 1))
    }),
    ("a quarter added", |of| {
        of.but(of.is_normal(), of.cut(HALF / 2, CUT))
    }),
    ("a half and the last digit added", |of| {
        of.but(of.is_normal() && !of.is_middle(), of.cut(HALF + 1, CUT))
    }),
    ("no half added", |of| of.but(of.is_normal(), of.down())),
    ("rounded to 25 digits, then to 24", |of| {
        let by_25 = f64::from_bits((of.sum.to_bits() + HALF / 2) >> (CUT - 1) << (CUT - 1));
        of.but(of.is_normal(), bits32(by_25 as f32))
    }),
    ("nothing left is -0", |of| {
        of.but(of.is_zero() && of.product != 0.0, SIGN)
    }),
    ("-0 and -0 is 0", |of| of.but(of.is_zero(), 0)),
    ("0 and -0 is -0", |of| {
        let unlike = of.product.is_sign_negative() != of.third.is_sign_negative();
        let nothing = of.product == 0.0 && of.third == 0.0;
        of.but(nothing && unlike, SIGN)
    }),
    ("on a product of zero the third", |of| {
        of.but(of.product == 0.0, bits32(of.third as f32))
    }),
    ("on a third of zero the product", |of| {
        of.but(of.third == 0.0, bits32(of.product as f32))
    }),
    ("an infinity at once above the largest", |of| {
        let above = of.sum.abs() > f64::from(f32::MAX);
        of.but(above, of.signed(INFINITY))
    }),
    ("the largest up to half a step above it", |of| {
        let border = f64::from(f32::MAX) + 2f64.powi(103);
        of.but(of.sum.abs() == border, of.signed(LARGEST))
    }),
    ("a subnormal answer is a zero", |of| {
        let subnormal = of.right & (SIGN - 1) < 1 << 23;
        of.but(subnormal, of.right & SIGN)
    }),
    ("a subnormal third is a zero", |of| {
        let [a, b, c] = of.operands;
        let zero = c & (SIGN - 1) < 1 << 23;
        let answer = exact::fma(BINARY32, a & (2 * SIGN - 1), b & (2 * SIGN - 1), c & SIGN);
        of.but(zero, answer)
    }),
];

/// Of so many cases, how many each of the wrong ones gets wrong.
fn told_apart(cases: impl Iterator<Item = Case>) -> [u64; ALL.len()] {
    let mut counts = [0; ALL.len()];
    for case in cases.filter(|case| case.operation == Operation::Fma32) {
        let sum = Sum::of(case.operands);
        for (count, (_, wrong)) in counts.iter_mut().zip(ALL) {
            *count += u64::from(wrong(&sum) != sum.right);
        }
    }
    counts
}

fn each_is_told_apart(list: &str, cases: impl Iterator<Item = Case>) {
    for ((name, _), count) in ALL.iter().zip(told_apart(cases)) {
        assert!(count > 0, "{list} doesn't tell apart: {name}");
    }
}

fn new_cases(seed: u64, count: usize) -> impl Iterator<Item = Case> {
    let mut random = Random::new(seed);
    (0..count).map(move |_| cases::new(Operation::Fma32, &mut random))
}

#[test]
fn the_stored_list_tells_each_apart() {
    let list = Float.stored();
    let cases = list.chunks_exact(CASE).filter_map(Case::read);
    each_is_told_apart("the stored list", cases);
}

#[test]
fn the_list_of_edges_tells_each_apart() {
    let cases = edge_list::cases().into_iter();
    each_is_told_apart("the list of edges", cases);
}

#[test]
fn new_lists_tell_each_apart() {
    each_is_told_apart("a new list", new_cases(1, 100_000));
}

/// By hand: `cargo test --release -- --ignored --nocapture of_a_million`.
#[test]
#[ignore = "it only counts"]
fn of_a_million_new_cases_each_gets_wrong() {
    for ((name, _), count) in ALL.iter().zip(told_apart(new_cases(7, 1_000_000))) {
        println!("{count:>8} {name}");
    }
}
