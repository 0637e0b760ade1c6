//! The replay of a list of calls that write, the whole file or its head alone: the model answers one after the other.
use crate::{
    random::Random,
    replay::{Counts, Replay, answered},
};
use std::marker::PhantomData;

/// A call as a list has it.
pub trait Writes: Sized {
    /// The list that is kept.
    fn stored() -> Vec<u8>;

    fn drawn(random: &mut Random) -> Self;

    /// The first call of a list, and what stands behind it.
    fn taken(list: &[u8]) -> Option<(Self, &[u8])>;

    fn bytes(&self) -> Vec<u8>;

    /// The number that answers it.
    fn number(&self) -> u32;

    fn answer(&self) -> Vec<u8>;

    fn answer_length(&self) -> usize;

    fn in_words(&self) -> String;
}

/// The calls of a list; what is left behind the last one that a replay takes is none.
pub fn calls<C: Writes>(list: &[u8]) -> impl Iterator<Item = C> {
    let mut rest = list;
    std::iter::from_fn(move || {
        let (call, behind) = C::taken(rest)?;
        rest = behind;
        Some(call)
    })
}

/// The replay of such calls.
pub struct Writing<C>(PhantomData<fn() -> C>);

impl<C> Writing<C> {
    pub const NEW: Self = Self(PhantomData);
}

impl<C: Writes> Replay for Writing<C> {
    fn stored(&self) -> Vec<u8> {
        C::stored()
    }

    fn generated(&self, random: &mut Random, cases: u64) -> Vec<u8> {
        (0..cases).flat_map(|_| C::drawn(random).bytes()).collect()
    }

    fn answers(&self, list: &[u8]) -> Result<Vec<u8>, String> {
        Ok(calls(list).flat_map(|call: C| call.answer()).collect())
    }

    fn counts(&self, list: &[u8]) -> Counts {
        let mut counts = Counts::new();
        for call in calls::<C>(list) {
            *counts.entry(answered(call.number())).or_default() += 1;
        }
        counts
    }

    fn told(&self, list: &[u8], answer_byte: usize) -> String {
        let mut end = 0;
        let held = calls(list).find_map(|call: C| {
            let begin = end;
            end += call.answer_length();
            (answer_byte < end).then_some((call, begin))
        });
        held.map_or("the list has ended".into(), |(call, begin)| {
            let byte = answer_byte - begin;
            format!("byte {byte} of the answer to {}", call.in_words())
        })
    }
}
