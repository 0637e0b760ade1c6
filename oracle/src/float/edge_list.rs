//! Fused multiply-adds in f32 that the stored list has behind all others: those that a sum in f64, cut to an f32's
//! digits, is likely to get wrong.
use super::{
    Case, Operation,
    edges::{self, beside_a_power},
};
use crate::{
    exact::{self, BINARY32},
    random::Random,
    shapes::nudged,
};

const SIGN: u64 = BINARY32.sign();
const LOWEST_NORMAL: u64 = 1 << 23;
const LARGEST: u64 = BINARY32.infinity() - 1;

/// 2^47 - 1. No two f32 have a product that is nearer to a power of two and isn't one.
const LEAST_BELOW_A_POWER: [u64; 2] = [10_610_063, 13_264_529];

/// How many of each family of edges.
const DRAWN: usize = 240;

/// Sums that f64 rounds into the middle between two f32: of the first the middle is one of subnormal numbers.
pub const ROUNDED_INTO_A_MIDDLE: [[u64; 3]; 3] = [
    [0x2180_0001, 0x127f_fffe, 0x0040_0001],
    [0x4dfc_57a7, 0x4b6c_cb8a, 0x4ad4_be7f],
    [0x4b26_336f, 0x4b04_8b8f, 0x5a3b_fdc2],
];

/// All of them, in the order of the list.
pub fn cases() -> Vec<Case> {
    let whole = [
        ROUNDED_INTO_A_MIDDLE.into_iter().flat_map(around).collect(),
        subnormal_middles(),
        products_alone(),
        lowest_normals(),
        largest(),
        cancelled(),
        zero_factors(),
        infinite_thirds(),
        drawn(),
    ];
    let case = |operands| Case {
        operation: Operation::Fma32,
        operands,
    };
    whole.into_iter().flatten().map(case).collect()
}

/// With the signs of product and third as they are and turned, each and both.
fn signs([a, b, c]: [u64; 3]) -> [[u64; 3]; 4] {
    [
        [a, b, c],
        [a ^ SIGN, b, c],
        [a, b, c ^ SIGN],
        [a, b ^ SIGN, c ^ SIGN],
    ]
}

/// Each operand one step down, as it is and one step up.
fn around([a, b, c]: [u64; 3]) -> Vec<[u64; 3]> {
    let near = |bits| [-1, 0, 1].map(|steps| nudged(BINARY32, bits, steps));
    let thirds = |a, b| near(c).map(|c| [a, b, c]);
    let pairs = |a| near(b).into_iter().flat_map(move |b| thirds(a, b));
    near(a)
        .into_iter()
        .flat_map(pairs)
        .flat_map(signs)
        .collect()
}

/// Factors whose product is 2 ^ `power`, and 2^-46 of it less and more.
fn beside(power: i64) -> [[u64; 2]; 3] {
    beside_a_power(23).map(|pair| factors(pair, power - 46))
}

fn all_beside(powers: &[i64]) -> Vec<[u64; 2]> {
    powers.iter().flat_map(|&power| beside(power)).collect()
}

/// Factors of these significands, whose product is theirs times 2 ^ `power`.
fn factors([a, b]: [u64; 2], power: i64) -> [u64; 2] {
    let first = power / 2;
    [(a, first), (b, power - first)].map(|(of, power)| exact::nearest(BINARY32, false, of, power))
}

/// Each third with each product.
fn met(thirds: &[u64], products: &[[u64; 2]]) -> Vec<[u64; 3]> {
    let with = |&c| products.iter().map(move |&[a, b]| [a, b, c]);
    thirds.iter().flat_map(with).flat_map(signs).collect()
}

/// A third of each subnormal length and of the first normal one, even and odd, and half the smallest step, which lacks
/// as little as a product can, 2^-47 of it, or has 2^-46 of it too little or too much.
fn subnormal_middles() -> Vec<[u64; 3]> {
    let of_length = |length: u32| {
        let first = 1 << (length - 1);
        [first, first + 1, 2 * first - 1]
    };
    let thirds: Vec<u64> = (1..=24).flat_map(of_length).collect();
    let least = factors(LEAST_BELOW_A_POWER, -150 - 47);
    met(&thirds, &[vec![least], all_beside(&[-150])].concat())
}

/// Products at the smallest value and at half of it, on a zero.
fn products_alone() -> Vec<[u64; 3]> {
    met(&[0], &all_beside(&[-151, -150, -149, -148]))
}

/// Sums at the lowest normal number, a quarter, a half and a whole step away from a number there.
fn lowest_normals() -> Vec<[u64; 3]> {
    let thirds = [-2, -1, 0, 1, 2].map(|steps| nudged(BINARY32, LOWEST_NORMAL, steps));
    met(&thirds, &all_beside(&[-151, -150, -149]))
}

/// Sums at 2^127, at the largest number and half a step above it, where an infinity begins.
fn largest() -> Vec<[u64; 3]> {
    let power = |of| exact::nearest(BINARY32, false, 1, of);
    let near = |of| [-1, 0, 1].map(|steps| nudged(BINARY32, power(of), steps));
    let below_largest = [0, -1, -2].map(|steps| nudged(BINARY32, LARGEST, steps));
    let completing = [
        vec![0],
        [102, 103, 104].into_iter().flat_map(near).collect(),
    ]
    .concat();
    [
        met(&below_largest, &all_beside(&[102, 103, 104])),
        met(&near(127), &all_beside(&[102, 103])),
        met(&completing, &all_beside(&[128])),
    ]
    .concat()
}

/// Sums that are nothing, of products at the borders and between.
pub fn cancelled() -> Vec<[u64; 3]> {
    let pairs = [
        [0x3f80_0000, 0x3f80_0000],
        [0x4040_0000, 0x40a0_0000],
        [0x3f80_0000, LARGEST],
        [0x3f80_0000, 0x0000_0001],
        [0x3f80_0000, 0x007f_ffff],
        [0x1f80_0000, 0x2000_0000],
        [0x1a80_0000, 0x1a00_0000],
        [0x457f_f000, 0x457f_f000],
        [0x5f7f_f000, 0x5f7f_f000],
        [0x2000_0800, 0x207f_f000],
    ];
    let third = |[a, b]: [u64; 2]| [a, b, exact::product(BINARY32, a, b)];
    pairs.map(third).into_iter().flat_map(signs).collect()
}

/// A zero as either factor, and a third that is nothing, subnormal or large.
fn zero_factors() -> Vec<[u64; 3]> {
    let others = [0x0000_0000, 0x0030_1234, 0x4049_0fdb, 0x7f12_3456];
    let thirds = [
        0x0000_0000,
        0x0000_0003,
        0x0055_5555,
        0x4049_0fdb,
        0x7f65_4321,
    ];
    let either = |b, c| [[0, b, c], [b, 0, c]];
    let pairs = others.iter().flat_map(|&b| thirds.map(|c| either(b, c)));
    pairs.flatten().flat_map(signs).collect()
}

/// An infinite third, and a product that is nothing, subnormal, between, and beyond the largest f32.
fn infinite_thirds() -> Vec<[u64; 3]> {
    let pairs = [
        [0x0000_0000, 0x4049_0fdb],
        [0x0030_1234, 0x0000_0003],
        [0x0030_1234, 0x4049_0fdb],
        [0x4049_0fdb, 0x4049_0fdb],
        [0x7f12_3456, 0x4049_0fdb],
        [0x7f12_3456, 0x7f65_4321],
    ];
    let third = |[a, b]: [u64; 2]| [a, b, BINARY32.infinity()];
    pairs.map(third).into_iter().flat_map(signs).collect()
}

/// Some of each family, from a seed of their own.
fn drawn() -> Vec<[u64; 3]> {
    let mut random = Random::new(3);
    let all = edges::FAMILIES
        .into_iter()
        .flat_map(|family| [family; DRAWN]);
    all.map(|family| family(BINARY32, &mut random)).collect()
}
