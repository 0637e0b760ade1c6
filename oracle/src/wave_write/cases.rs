//! The stored list, by families: numbers at their limits, refusals together, what lies in the output before, samples of all
//! kinds, recordings by other programs written again, and calls drawn at random.
use super::{
    before,
    call::{Call, LONGEST, LONGEST_TILE},
    drawn,
    made::Made,
    numbers, refusals,
    rules::HEAD,
    writing::Writes,
};
use crate::{
    random::Random,
    wave::{
        file::{Chunk, File, counted},
        recordings::RECORDINGS,
        rules::read,
    },
};

/// How many calls of the stored list are drawn at random.
const DRAWN: usize = 300;

/// Every family, and a call that ends too soon.
pub fn stored() -> Vec<u8> {
    let calls = families().into_iter().flat_map(|(_, calls)| calls);
    let mut list: Vec<u8> = calls.flat_map(|call| call.bytes()).collect();
    let last = at(48_000, 2, 46).bytes();
    list.extend(&last[..last.len() - 1]);
    list
}

fn families() -> Vec<(&'static str, Vec<Call>)> {
    let mut random = Random::new(22);
    let together = refusals::all().into_iter().map(Made::judged);
    vec![
        ("rates", numbers::rates()),
        ("lengths with rooms around", numbers::lengths()),
        ("rooms up to a hundred bytes", numbers::rooms()),
        ("at the limit", numbers::at_the_limit()),
        ("up to four refusals", together.collect()),
        ("what lies there before", over_tiles()),
        ("kinds of samples", kinds_of_samples()),
        ("one byte among zeros", one_byte()),
        ("tiles", tiles()),
        ("recordings", recordings()),
        (
            "drawn",
            (0..DRAWN).map(|_| drawn::call(&mut random)).collect(),
        ),
    ]
}

/// Samples that no power of two repeats, over bytes that no file has so.
pub fn at(rate: u32, length: usize, room: usize) -> Call {
    Call {
        rate,
        length,
        room,
        samples: counted(13),
        before: b"\xa5\x5a\xc3".to_vec(),
    }
}

/// Over each tile calls that are done, over all of it and over a part, and calls refused by each number.
fn over_tiles() -> Vec<Call> {
    let mut calls = Vec::new();
    for before in before::tiles() {
        let whole = before.len().max(50);
        for (rate, length, room) in [
            (32_000, 0, 44),
            (24_000, 6, 50),
            (88_200, 6, whole),
            (12_000, whole / 2 * 2, 2 * whole + HEAD),
            (176_400, 20, 700),
            (7_999, 6, whole),
            (192_001, 6, 700),
            (32_000, 7, whole),
            (24_000, 5, 700),
            (88_200, 1_048_578, whole),
            (176_400, 400, whole),
            (32_000, 658, 700),
        ] {
            let before = before.clone();
            calls.push(Call {
                before,
                ..at(rate, length, room)
            });
        }
    }
    calls
}

/// Silence, the borders of a sample, every byte, and what looks like heads and files.
fn kinds_of_samples() -> Vec<Call> {
    let tiles = [
        Vec::new(),
        vec![0xff],
        vec![0x00, 0x80],
        vec![0xff, 0x7f],
        counted(256),
        b"data".to_vec(),
        b"data\xff\xff\xff\xff".to_vec(),
        b"fmt \x10\0\0\0".to_vec(),
        b"RIFF\x04\0\0\0WAVE".to_vec(),
        Chunk::new(b"LIST", *b"INFO").bytes(),
        File::plain(8_000, 4).bytes(),
        File::plain(8_000, 3).bytes(),
    ];
    let mut calls = Vec::new();
    for samples in tiles {
        for length in [2, 8, 44, 256, 1_000] {
            for spare in [0, 20] {
                let samples = samples.clone();
                calls.push(Call {
                    samples,
                    ..at(16_000, length, HEAD + length + spare)
                });
            }
        }
    }
    calls
}

/// Each of 64 bytes by itself.
fn one_byte() -> Vec<Call> {
    let call = |place: usize| {
        let mut samples = vec![0; 64];
        samples[place] = 0xff;
        Call {
            samples,
            ..at(48_000, 64, HEAD + 64 + 3)
        }
    };
    (0..64).map(call).collect()
}

/// Tiles as long as what they fill, longer, shorter, and as long as a replay takes.
fn tiles() -> Vec<Call> {
    let mut calls = Vec::new();
    for length in [0, 1, 2, 5, 6, 12] {
        for samples in 0..14 {
            let before = HEAD + 12 - samples;
            calls.push(Call {
                samples: counted(samples),
                before: counted(before),
                ..at(11_025, length, HEAD + 7)
            });
        }
    }
    let length = LONGEST_TILE + 2;
    let samples = (0..LONGEST_TILE).map(|at| (at + at / 256) as u8).collect();
    calls.push(Call {
        samples,
        ..at(96_000, length, HEAD + length + 1)
    });
    calls.push(at(96_000, LONGEST, LONGEST));
    calls
}

/// What is accepted of other programs' recordings, written over itself and into just enough room.
fn recordings() -> Vec<Call> {
    let mut calls = Vec::new();
    for (_, file) in RECORDINGS {
        let told = read(file);
        if told.number != 0 {
            continue;
        }
        let length = told.length as usize;
        let samples = &file[told.place as usize..][..length];
        for (room, before) in [(file.len(), *file), (HEAD + length, b"")] {
            calls.push(Call {
                rate: told.rate,
                length,
                room,
                samples: samples.to_vec(),
                before: before.to_vec(),
            });
        }
    }
    calls
}

#[cfg(test)]
mod tests {
    use super::{
        super::{made::ORDER, rules, writing::calls},
        *,
    };
    use std::collections::BTreeMap;

    /// The refusals that hold of each call of the stored list.
    fn sets() -> Vec<Vec<u32>> {
        let calls = families().into_iter().flat_map(|(_, calls)| calls);
        calls
            .map(|call| rules::refusals(call.asked()).collect())
            .collect()
    }

    /// Said where it is run with --nocapture.
    #[test]
    fn the_stored_list_has_what_it_needs() {
        let mut answers = BTreeMap::<u32, usize>::new();
        let mut bytes = 0;
        for (name, calls) in families() {
            let numbers = calls.iter().map(|call| call.written().0.number);
            let done = numbers.clone().filter(|&number| number == 0).count();
            let size: usize = calls
                .iter()
                .map(|call| call.bytes().len() + call.answer_length())
                .sum();
            println!("{:>6} {done:>6} done, {size:>6} bytes, {name}", calls.len());
            bytes += size;
            for number in numbers {
                *answers.entry(number).or_default() += 1;
            }
        }
        println!("{answers:?}, {bytes} bytes");
        assert!(answers.keys().eq(&[0, 5, 14, 15, 17]));
        assert!(answers.values().all(|&count| count >= 40));
        assert_eq!(calls::<Call>(&stored()).count(), answers.values().sum());
        assert!(bytes < 600_000, "{bytes}");
    }

    /// Bytes that must stay: behind a file, of an earlier one that it lies over, of one that a refused call leaves.
    #[test]
    fn earlier_files_are_there() {
        let mut counts = [0; 3];
        for call in calls::<Call>(&stored()) {
            let done = rules::refusals(call.asked()).next().is_none();
            let earlier = read(&call.given_output()).number == 0;
            counts[0] += usize::from(done && call.room > HEAD + call.length);
            counts[1] += usize::from(done && earlier);
            counts[2] += usize::from(!done && earlier);
        }
        println!("{counts:?}");
        assert!(counts.iter().all(|&count| count >= 100), "{counts:?}");
    }

    /// No law sees the order of refusals, so the list must: every set of two, of three, and all four.
    #[test]
    fn every_set_of_refusals_is_there() {
        let mut counts = BTreeMap::<Vec<u32>, usize>::new();
        for set in sets() {
            *counts.entry(set).or_default() += 1;
        }
        println!("{counts:?}");
        let every = (0..16).map(|set| {
            let numbers = ORDER.into_iter().enumerate();
            let held = numbers.filter(|(at, _)| set >> at & 1 == 1);
            held.map(|(_, number)| number).collect::<Vec<_>>()
        });
        for set in every {
            let count = counts.get(&set).copied().unwrap_or(0);
            assert!(count >= 12, "{set:?}: {count}");
        }
    }
}
