//! Lists of calls: the one that is stored, and new ones.
use super::{
    Action, BYTES, Call, NAMES, PARTS, Part,
    rules::{self, MINUS_ZERO, Numbers, ONE},
};
use crate::{
    exact::BINARY32,
    random::Random,
    shapes::{exponent, normal, nudged, signed, special, specials, subnormal},
};

/// The largest number below 1.
const BELOW_ONE: u64 = ONE - 1;

/// How many steps of each part the stored list has in runs.
const STORED_STEPS: u64 = 25_500;

/// The stored list: each special sample on each pair of special registers, then runs of calls, a record
/// of each number that no call has, and one that ends too soon.
pub fn stored() -> Vec<u8> {
    let mut random = Random::new(3);
    let mut calls = listed(&mut random);
    for part in PARTS {
        runs(part, STORED_STEPS, &mut random, &mut calls);
    }
    let mut list: Vec<u8> = calls.into_iter().flat_map(Call::bytes).collect();
    for number in [0, NAMES.len() as u32 + 1, u32::MAX] {
        list.extend(number.to_le_bytes());
        list.extend([0x3f; BYTES - 4]);
    }
    list.extend([2; BYTES - 1]);
    list
}

/// A new list, with `steps` steps of each part.
pub fn generated(random: &mut Random, steps: u64) -> Vec<u8> {
    let mut calls = Vec::new();
    for part in PARTS {
        runs(part, steps, random, &mut calls);
    }
    calls.into_iter().flat_map(Call::bytes).collect()
}

/// A step on each state whose registers are special values, by each special sample.
fn listed(random: &mut Random) -> Vec<Call> {
    let values = specials(BINARY32);
    let mut calls = Vec::new();
    for &x in &values {
        for &first in &values {
            let follower = [worked(random), worked(random), first];
            calls.push(call(Part::Follower, Action::Step, follower, x));
            for &second in &values {
                let blocker = [worked(random), first, second];
                calls.push(call(Part::Blocker, Action::Step, blocker, x));
            }
        }
    }
    calls
}

const fn call(part: Part, action: Action, state: Numbers, x: u64) -> Call {
    Call {
        part,
        action,
        state,
        x,
    }
}

/// Runs of calls with `steps` steps of one part in all. A run begins with a making, or on numbers that
/// a host hands back, and goes on from the state that each call leaves.
fn runs(part: Part, steps: u64, random: &mut Random, calls: &mut Vec<Call>) {
    let mut left = steps;
    while left > 0 {
        let mut state = state(part, random);
        // A sample of the size of the level, or of y1.
        let mut x = signed(BINARY32, state[2], random);
        if random.coin() {
            calls.push(call(part, Action::Make, state, 0));
            state = rules::make(part, state).state;
        }
        let sample = random.pick(&SAMPLES);
        let length = (1 + random.below(80)).min(left);
        for _ in 0..length {
            calls.push(call(part, Action::Step, state, x));
            state = rules::step(part, state, x).state;
            x = sample(random);
        }
        if random.below(4) == 0 {
            calls.push(call(part, Action::Reset, state, 0));
        }
        left -= length;
    }
}

/// A state's numbers, one worked number in twelve not accepted.
fn state(part: Part, random: &mut Random) -> Numbers {
    let mut worked = || match random.below(12) {
        0 => not_accepted(random),
        _ => worked(random),
    };
    match part {
        Part::Follower => [worked(), worked(), any(random)],
        Part::Blocker => [worked(), any(random), any(random)],
    }
}

/// A worked number that is accepted, its limits among them.
fn worked(random: &mut Random) -> u64 {
    let steps = random.between(-40_000, 0);
    match random.below(8) {
        0 => random.pick(&[0, MINUS_ZERO, 1, BELOW_ONE, BELOW_ONE - 1, ONE >> 1]),
        1 | 2 => random.below(ONE),
        3 | 4 => nudged(BINARY32, BELOW_ONE, steps),
        _ => {
            let exponent = random.between(-12, -1);
            normal(BINARY32, exponent, random) & !BINARY32.sign()
        }
    }
}

/// A worked number that is refused: 1 and what lies next to it, a negative one, an infinity, a NaN.
fn not_accepted(random: &mut Random) -> u64 {
    match random.below(4) {
        0 => random.pick(&[ONE, ONE + 1, MINUS_ZERO + 1, ONE | MINUS_ZERO]),
        1 => random.pick(&[
            BINARY32.infinity(),
            BINARY32.nan(),
            0xff80_0000,
            0xffc0_0001,
            0x7f80_0001,
        ]),
        2 => ONE + random.below(BINARY32.sign() - ONE),
        _ => MINUS_ZERO + 1 + random.below(BINARY32.sign() - 1),
    }
}

/// What a sample can be, by what it tries.
const SAMPLES: [fn(&mut Random) -> u64; 6] = [any, any_bits, heard, faint, silent, apart];

fn any(random: &mut Random) -> u64 {
    match random.below(4) {
        0 => any_bits(random),
        1 => special(BINARY32, random),
        2 => faint(random),
        _ => heard(random),
    }
}

fn any_bits(random: &mut Random) -> u64 {
    random.bits32().into()
}

/// Up to 64 in size, as a stage takes it.
fn heard(random: &mut Random) -> u64 {
    let exponent = random.between(-24, 5);
    normal(BINARY32, exponent, random)
}

fn faint(random: &mut Random) -> u64 {
    if random.coin() {
        subnormal(BINARY32, random)
    } else {
        let exponent = random.between(-130, -100);
        normal(BINARY32, exponent, random)
    }
}

/// Mostly zeros.
fn silent(random: &mut Random) -> u64 {
    match random.below(16) {
        0 => heard(random),
        1 => MINUS_ZERO,
        _ => 0,
    }
}

/// Of any exponent, so that neighbours differ much.
fn apart(random: &mut Random) -> u64 {
    let exponent = exponent(BINARY32, random);
    normal(BINARY32, exponent, random)
}
