//! The refusals of a head, in a table; its bytes are the list of fields that the writer's model has.
use crate::{
    wave::rules::{ODD, RATE},
    wave_write::rules::{HEAD, OVER, ROOM, Written, head},
};

/// 36 and the samples must be a number of 32 bits, and the samples are even.
pub const MOST: u64 = 4_294_967_258;

/// What the refusals look at: the rate, how many bytes of samples there will be, and how many the output has.
#[derive(Clone, Copy)]
pub struct Asked {
    pub rate: u32,
    pub samples: u64,
    pub room: usize,
}

/// A refusal's number, and whether it holds.
type Refusal = (u32, fn(Asked) -> bool);

/// In the order that decides.
const REFUSALS: [Refusal; 4] = [
    (RATE, |asked| !(8_000..=192_000).contains(&asked.rate)),
    (ODD, |asked| asked.samples % 2 == 1),
    (OVER, |asked| asked.samples > MOST),
    (ROOM, |asked| asked.room < HEAD),
];

/// Every refusal that holds, the one that answers first.
pub fn refusals(asked: Asked) -> impl Iterator<Item = u32> {
    let held = REFUSALS.iter().filter(move |(_, holds)| holds(asked));
    held.map(|&(number, _)| number)
}

/// What a call tells, and the whole output behind it, given what lay there before.
pub fn write_head(rate: u32, samples: u64, before: &[u8]) -> (Written, Vec<u8>) {
    let asked = Asked {
        rate,
        samples,
        room: before.len(),
    };
    if let Some(number) = refusals(asked).next() {
        return (Written { number, length: 0 }, before.to_vec());
    }
    let samples = u32::try_from(samples).expect("no more than the most");
    let mut output = head(rate, samples);
    output.extend(&before[HEAD..]);
    let length = HEAD as u32;
    (Written { number: 0, length }, output)
}
