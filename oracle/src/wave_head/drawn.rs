//! Calls drawn at random: most are done, and the refusals of the others are put in one by one, so that they meet.
use super::{call::Call, made::Made, rules::MOST};
use crate::{
    random::Random,
    wave::{
        drawn::accepted_rate,
        rules::{ODD, RATE},
    },
    wave_write::{
        drawn::{before, refused_rate},
        rules::{HEAD, OVER, ROOM},
    },
};

/// A call that the model answers as it was made.
pub fn call(random: &mut Random) -> Call {
    let odds = [(RATE, 10), (ODD, 12), (OVER, 8), (ROOM, 10)];
    let drawn = odds.into_iter().filter(|&(_, of)| random.below(of) == 0);
    let refusals: Vec<u32> = drawn.map(|(number, _)| number).collect();
    let has = |number| refusals.contains(&number);
    let rate = if has(RATE) {
        refused_rate(random)
    } else {
        accepted_rate(random)
    };
    let room = if has(ROOM) {
        random.below(HEAD as u64) as usize
    } else {
        HEAD + (random.below(200) >> random.below(8)) as usize
    };
    let call = Call {
        rate,
        samples: size(has(ODD), has(OVER), random),
        room,
        before: before(random),
    };
    Made { call, refusals }.judged()
}

/// Of any number of bits; near the most at times, on either side.
fn size(odd: bool, over: bool, random: &mut Random) -> u64 {
    let half_most = MOST / 2;
    let near = random.below(20);
    let half = match (over, random.below(4)) {
        (false, 0) => half_most - near - u64::from(odd),
        (false, _) => random.below(half_most) >> random.below(31),
        (true, 0) => half_most + near + u64::from(!odd),
        (true, 1) => ((1 + near) << 31) + random.below(1 << 20),
        (true, _) => half_most + 1 + (random.bits() >> random.between(2, 32)),
    };
    2 * half + u64::from(odd)
}
