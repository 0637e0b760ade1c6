//! Calls drawn at random: most are done, and the refusals of the others are put in one by one, so that they meet.
use super::{
    call::Call,
    made::{Made, plain},
    rules::{HEAD, MOST, OVER, ROOM},
};
use crate::{
    random::Random,
    wave::{
        drawn::{accepted_rate, good},
        file::Chunk,
        rules::{ODD, RATE},
    },
};

/// A call that the model answers as it was made.
pub fn call(random: &mut Random) -> Call {
    made(random).judged()
}

fn made(random: &mut Random) -> Made {
    let odds = [(RATE, 10), (ODD, 12), (OVER, 1_000), (ROOM, 7)];
    let drawn = odds.into_iter().filter(|&(_, of)| random.below(of) == 0);
    let refusals: Vec<u32> = drawn.map(|(number, _)| number).collect();
    let has = |number| refusals.contains(&number);
    let rate = if has(RATE) {
        refused_rate(random)
    } else {
        accepted_rate(random)
    };
    let length = length(has(ODD), has(OVER), random);
    let room = if has(ROOM) {
        short_room(length, random)
    } else {
        HEAD + length + spare(random)
    };
    let call = Call {
        rate,
        length,
        room,
        samples: samples(length, random),
        before: before(random),
    };
    Made { call, refusals }
}

pub fn refused_rate(random: &mut Random) -> u32 {
    let below = random.below(8_000) as u32;
    let above = 192_001 + (random.bits32() >> random.between(1, 14));
    let by_its_low_bits = accepted_rate(random) | 1 << random.between(18, 31);
    random.pick(&[0, 7_999, 192_001, below, above, by_its_low_bits, u32::MAX])
}

/// Mostly short; at times as much as the limit allows, and over it up to nearly twice that.
fn length(odd: bool, over: bool, random: &mut Random) -> usize {
    let most = MOST as u64 / 2;
    let half = match random.below(5_000) {
        _ if over => most + random.pick(&[0, 0, 1, 500_000]),
        0 => most - u64::from(odd) - random.below(3),
        1..10 => random.below(most),
        10..2_000 => random.below(20),
        _ => random.below(200),
    };
    let even = 2 * half as usize;
    match (odd, over) {
        (false, true) => even + 2,
        (true, _) => even + 1,
        (false, false) => even,
    }
}

/// Less than the file takes.
fn short_room(length: usize, random: &mut Random) -> usize {
    let file = HEAD + length;
    let near = file - 1 - random.below(4) as usize;
    let any = random.below(file as u64) as usize;
    random.pick(&[file - 1, file - 1, near, any, length, 43, 0])
}

/// More than the file takes: mostly none or little.
fn spare(random: &mut Random) -> usize {
    let few = random.below(10) as usize;
    let many = random.below(400) as usize;
    random.pick(&[0, 0, 0, 1, few, few, many])
}

/// Silence, and the borders of a sample.
const PLAIN: [&[u8]; 4] = [&[], &[0xff], &[0, 0x80], &[0xff, 0x7f]];

fn samples(length: usize, random: &mut Random) -> Vec<u8> {
    let few = 1 + random.below(61);
    let whole = length.min(400) as u64 + random.below(3);
    match random.below(8) {
        0 => random.pick(&PLAIN).to_vec(),
        1 => random.pick(&[b"data", b"RIFF", b"fmt ", b"WAVE"]).to_vec(),
        2 => bytes(few, random),
        _ => bytes(whole, random),
    }
}

fn bytes(length: u64, random: &mut Random) -> Vec<u8> {
    (0..length).map(|_| random.bits() as u8).collect()
}

/// What lies in the output: nothing, any bytes, or an earlier file, with chunks of all kinds or as the writer leaves it.
pub fn before(random: &mut Random) -> Vec<u8> {
    let few = 1 + random.below(61);
    let earlier = 2 * random.below(100);
    match random.below(6) {
        0 => Vec::new(),
        1 => bytes(few, random),
        2 => Chunk::data(random.below(9) as usize).bytes(),
        3 => good(random).file.bytes(),
        _ => plain(accepted_rate(random), bytes(earlier, random)).bytes(),
    }
}
