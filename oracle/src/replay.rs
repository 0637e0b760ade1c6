//! What the oracle has for each stage: a list of calls, the bytes that a program reads, and the answers to
//! a list, the bytes that it writes.
use crate::random::Random;
use std::collections::BTreeMap;

pub trait Replay: Sync {
    /// The list that is kept.
    fn stored(&self) -> Vec<u8>;

    /// A new list, of `cases` of each kind that the stage has.
    fn generated(&self, random: &mut Random, cases: u64) -> Vec<u8>;

    /// The answers to a list, or why the oracle has none.
    fn answers(&self, calls: &[u8]) -> Result<Vec<u8>, String>;

    /// How many calls of each kind a list has.
    fn counts(&self, calls: &[u8]) -> Counts;

    /// The call whose answer holds this byte, in words.
    fn told(&self, calls: &[u8], answer_byte: usize) -> String;

    /// What a program says of a list on standard error, where it is to say something.
    fn said(&self, _calls: &[u8]) -> Option<String> {
        None
    }
}

pub type Counts = BTreeMap<&'static str, u64>;

/// What every sample of a buffer for the output is before the call.
pub const BEFORE: f32 = -1000.0;

/// What every byte of a buffer for aims is before the call.
pub const AIM_BEFORE: u8 = 0xa5;

/// The answer's number where no call has the number that was read.
pub const NO_CALL: u32 = u32::MAX;

/// The kind of an answer, by its number.
pub const fn answered(number: u32) -> &'static str {
    match number {
        0 => "answered 0",
        1 => "answered 1",
        2 => "answered 2",
        3 => "answered 3",
        4 => "answered 4",
        5 => "answered 5",
        6 => "answered 6",
        7 => "answered 7",
        8 => "answered 8",
        9 => "answered 9",
        10 => "answered 10",
        11 => "answered 11",
        12 => "answered 12",
        13 => "answered 13",
        14 => "answered 14",
        15 => "answered 15",
        17 => "answered 17",
        _ => "answered by all ones",
    }
}
