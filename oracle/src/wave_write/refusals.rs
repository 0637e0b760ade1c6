//! Every set of refusals at once, none and all four among them, each with several lengths and rooms.
use super::{
    before,
    call::Call,
    made::{Made, ORDER},
    rules::{HEAD, OVER, ROOM},
};
use crate::wave::{
    file::counted,
    rules::{ODD, RATE},
};

const ACCEPTED: [u32; 5] = [8_000, 16_000, 44_100, 48_000, 192_000];
const REFUSED: [u32; 5] = [0, 7_999, 192_001, 0x8000_bb80, u32::MAX];

/// Lengths that are even and not over the limit, odd, over it, and both.
fn lengths(odd: bool, over: bool) -> [usize; 3] {
    match (odd, over) {
        (false, false) => [0, 26, 1_048_576],
        (true, false) => [1, 27, 1_048_575],
        (false, true) => [1_048_578, 1_048_580, 1_114_112],
        (true, true) => [1_048_577, 1_048_579, 1_114_113],
    }
}

/// Rooms that are too small for the file, or large enough.
const fn rooms(length: usize, short: bool) -> [usize; 4] {
    let file = HEAD + length;
    if short {
        [file - 1, 0, length, 43]
    } else {
        [file, file + 1, file + 2, file + 52]
    }
}

/// Each length with each room; rates and what lies there before take turns.
pub fn all() -> Vec<Made> {
    let mut before = before::tiles().into_iter().cycle();
    let mut made = Vec::new();
    for set in 0..16 {
        let numbers = ORDER.into_iter().enumerate();
        let refusals: Vec<u32> = numbers
            .filter(|(at, _)| set >> at & 1 == 1)
            .map(|(_, number)| number)
            .collect();
        let has = |number| refusals.contains(&number);
        let rates = if has(RATE) { REFUSED } else { ACCEPTED };
        let mut rates = rates.into_iter().cycle();
        for length in lengths(has(ODD), has(OVER)) {
            for room in rooms(length, has(ROOM)) {
                let call = Call {
                    rate: rates.next().expect("it goes round"),
                    length,
                    room,
                    samples: counted(13),
                    before: before.next().expect("it goes round"),
                };
                let refusals = refusals.clone();
                made.push(Made { call, refusals });
            }
        }
    }
    made
}
