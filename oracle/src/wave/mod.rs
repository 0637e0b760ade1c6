//! The reader of WAVE files: document 02's W1. There is no Rust of it, so the model alone answers; its own tests hold it to
//! rows written out by hand, to files made with their answers, and to what other programs say of theirs.
//! `oracle/README.md` says what stands where in a call and in its answer.
mod cases;
mod chunks;
pub(crate) mod drawn;
mod faults;
pub(crate) mod file;
mod formats;
pub(crate) mod recordings;
#[cfg(test)]
mod rows;
pub(crate) mod rules;

use crate::{
    random::Random,
    replay::{Counts, Replay, answered},
};
use rules::Told;

const ANSWER: usize = 24;

/// A call: the file's length, and its bytes.
fn record(file: &[u8]) -> Vec<u8> {
    let mut bytes = (file.len() as u32).to_le_bytes().to_vec();
    bytes.extend(file);
    bytes
}

/// The files of a list; what is left behind the last whole one is none.
fn files(list: &[u8]) -> impl Iterator<Item = &[u8]> {
    let mut rest = list;
    std::iter::from_fn(move || {
        let (length, behind) = rest.split_first_chunk::<4>()?;
        let length = u32::from_le_bytes(*length) as usize;
        let (file, behind) = behind.split_at_checked(length)?;
        rest = behind;
        Some(file)
    })
}

pub(crate) fn answer(told: Told) -> Vec<u8> {
    let mut bytes = told.number.to_le_bytes().to_vec();
    bytes.extend(told.rate.to_le_bytes());
    bytes.extend(told.place.to_le_bytes());
    bytes.extend(told.length.to_le_bytes());
    bytes
}

pub struct Wave;

impl Replay for Wave {
    fn stored(&self) -> Vec<u8> {
        cases::stored()
    }

    fn generated(&self, random: &mut Random, cases: u64) -> Vec<u8> {
        (0..cases)
            .flat_map(|_| record(&drawn::file(random)))
            .collect()
    }

    fn answers(&self, list: &[u8]) -> Result<Vec<u8>, String> {
        Ok(files(list).map(rules::read).flat_map(answer).collect())
    }

    fn counts(&self, list: &[u8]) -> Counts {
        let mut counts = Counts::new();
        for told in files(list).map(rules::read) {
            *counts.entry(answered(told.number)).or_default() += 1;
        }
        counts
    }

    fn told(&self, list: &[u8], answer_byte: usize) -> String {
        let file = files(list).nth(answer_byte / ANSWER);
        file.map_or("the list has ended".into(), |file| {
            format!(
                "{:?} of a file of {} bytes:\n{file:02x?}",
                rules::read(file),
                file.len()
            )
        })
    }
}
