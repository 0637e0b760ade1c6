//! One good file, every way to spoil it at a chunk, and all files spoilt in one, two or three ways at once. What answers
//! is told by the table alone: the fault at the earliest chunk, and at one chunk the first in document 02's order.
use super::{
    file::{Chunk, File, Format},
    rules::{FORMAT, LACKS, NOT_WAVE, ODD, RATE, RUNS_PAST, read},
};

/// The order at one chunk.
const ORDER: [u32; 6] = [NOT_WAVE, RUNS_PAST, LACKS, FORMAT, RATE, ODD];

// The parts of the file that a fault spoils, or counts on.
const RIFF: u32 = 1;
const FORM: u32 = 1 << 1;
const RIFF_SIZE: u32 = 1 << 2;
const LIST_SIZE: u32 = 1 << 3;
const FORMAT_NAME: u32 = 1 << 4;
const FORMAT_SIZE: u32 = 1 << 5;
const TAG: u32 = 1 << 6;
const CHANNELS: u32 = 1 << 7;
const RATES: u32 = 1 << 8;
const BYTE_RATE: u32 = 1 << 9;
const ALIGN: u32 = 1 << 10;
const BITS: u32 = 1 << 11;
const NOTE_SIZE: u32 = 1 << 12;
const DATA_NAME: u32 = 1 << 13;
const DATA_BODY: u32 = 1 << 14;
const DATA_SIZE: u32 = 1 << 15;

/// A fault by its chunk (0 is the RIFF head, 5 what stands behind the last) and its number.
#[derive(Clone, Copy)]
struct Fault {
    chunk: usize,
    number: u32,
    spoils: u32,
    needs: u32,
    spoil: fn(&mut File),
}

impl Fault {
    /// Whether neither spoils what the other does or needs.
    const fn goes_with(&self, other: &Self) -> bool {
        self.spoils & (other.spoils | other.needs) == 0 && self.needs & other.spoils == 0
    }

    /// Where it stands in the order of refusals.
    fn rank(&self) -> (usize, Option<usize>) {
        let in_order = ORDER.iter().position(|&number| number == self.number);
        (self.chunk, in_order)
    }
}

/// `LIST`, `fmt `, an odd chunk with its pad, and `data`: chunks 1 to 4.
fn good() -> File {
    File::of([
        Chunk::new(b"LIST", *b"INFO"),
        Chunk::format(Format::at(16_000)),
        Chunk::new(b"note", *b"odd"),
        Chunk::data(6),
    ])
}

const fn fault(chunk: usize, number: u32, spoils: u32, needs: u32, spoil: fn(&mut File)) -> Fault {
    Fault {
        chunk,
        number,
        spoils,
        needs,
        spoil,
    }
}

fn set_rate(file: &mut File, rate: u32) {
    file.chunks[1].body[4..12].copy_from_slice(&Format::at(rate).bytes()[4..12]);
}

/// The walk's end, at so many bytes behind the beginning of a chunk.
fn end_in(file: &mut File, chunk: usize, bytes: usize) {
    file.size = Some((file.begin(chunk - 1) + bytes - 8) as u32);
}

/// In the order in which they are put in: fields, then sizes that count on bodies, then the end, which counts on all.
const FAULTS: &[Fault] = &[
    fault(2, RATE, RATES, FORMAT_NAME, |file| set_rate(file, 7_999)),
    fault(2, RATE, RATES, FORMAT_NAME, |file| set_rate(file, 192_001)),
    fault(2, FORMAT, TAG, FORMAT_NAME, |file| {
        file.chunks[1].body[0] = 3
    }),
    fault(2, FORMAT, CHANNELS, FORMAT_NAME, |file| {
        file.chunks[1].body[2] = 2
    }),
    fault(2, FORMAT, BYTE_RATE, FORMAT_NAME, |file| {
        file.chunks[1].body[8] ^= 1
    }),
    fault(2, FORMAT, ALIGN, FORMAT_NAME, |file| {
        file.chunks[1].body[12] = 4
    }),
    fault(2, FORMAT, BITS, FORMAT_NAME, |file| {
        file.chunks[1].body[14] = 8
    }),
    fault(2, FORMAT, FORMAT_SIZE, FORMAT_NAME, |file| {
        file.chunks[1].body.extend([0, 0])
    }),
    fault(2, FORMAT, FORMAT_SIZE, FORMAT_NAME, |file| {
        file.chunks[1].body.truncate(14)
    }),
    fault(4, LACKS, FORMAT_NAME, DATA_NAME, |file| {
        file.chunks[1].name = *b"fmt\0"
    }),
    fault(4, ODD, DATA_BODY, DATA_NAME, |file| {
        file.chunks[3].body.push(1)
    }),
    fault(5, LACKS, DATA_NAME, 0, |file| {
        file.chunks[3].name = *b"DATA"
    }),
    fault(0, NOT_WAVE, RIFF, 0, |file| file.riff = *b"RIFX"),
    fault(0, NOT_WAVE, FORM, 0, |file| file.form = *b"AVI "),
    fault(0, NOT_WAVE, RIFF_SIZE, 0, |file| file.size = Some(3)),
    fault(1, RUNS_PAST, LIST_SIZE, 0, |file| {
        file.chunks[0].size = Some(0x7fff_fffe)
    }),
    fault(1, RUNS_PAST, RIFF_SIZE, 0, |file| end_in(file, 1, 5)),
    fault(2, RUNS_PAST, FORMAT_SIZE, 0, |file| {
        file.chunks[1].size = Some(0xffff_ffe0)
    }),
    fault(2, RUNS_PAST, RIFF_SIZE, 0, |file| end_in(file, 2, 7)),
    fault(2, RUNS_PAST, RIFF_SIZE, 0, |file| end_in(file, 2, 21)),
    fault(2, RUNS_PAST, RIFF_SIZE | FORMAT_SIZE, FORMAT_NAME, |file| {
        file.chunks[1].body.push(0);
        end_in(file, 2, 25);
    }),
    fault(3, RUNS_PAST, NOTE_SIZE, 0, |file| {
        file.chunks[2].size = Some(0x0101)
    }),
    fault(3, RUNS_PAST, RIFF_SIZE, 0, |file| end_in(file, 3, 1)),
    fault(3, RUNS_PAST, RIFF_SIZE, 0, |file| end_in(file, 3, 11)),
    fault(4, RUNS_PAST, DATA_SIZE, 0, |file| {
        let length = file.chunks[3].body.len() as u32;
        file.chunks[3].size = Some(length + 2);
    }),
    fault(4, RUNS_PAST, RIFF_SIZE, 0, |file| end_in(file, 4, 4)),
    fault(4, RUNS_PAST, RIFF_SIZE, 0, |file| end_in(file, 4, 12)),
    fault(5, RUNS_PAST, DATA_NAME | RIFF_SIZE, 0, |file| {
        file.chunks[3].name = *b"DATA";
        file.behind = b"data\0".to_vec();
        file.size = Some(file.bytes().len() as u32 - 8);
    }),
];

/// A file with all faults of a list.
pub struct Spoilt {
    faults: Vec<Fault>,
    pub file: Vec<u8>,
}

impl Spoilt {
    fn of(faults: Vec<Fault>) -> Self {
        let mut file = good();
        for fault in &faults {
            (fault.spoil)(&mut file);
        }
        let file = file.bytes();
        Self { faults, file }
    }

    /// The number of the fault that is met first.
    fn answer(&self) -> u32 {
        let first = self.faults.iter().min_by_key(|fault| fault.rank());
        first.map_or(0, |fault| fault.number)
    }
}

/// The good file, and every one with up to three faults that go with each other. The model must answer as the table does.
pub fn all() -> Vec<Spoilt> {
    let mut lists: Vec<Vec<Fault>> = vec![Vec::new()];
    for fault in FAULTS {
        let with = |list: &Vec<Fault>| {
            let fits = list.len() < 3 && list.iter().all(|other| fault.goes_with(other));
            fits.then(|| [list.as_slice(), &[*fault]].concat())
        };
        let more: Vec<_> = lists.iter().filter_map(with).collect();
        lists.extend(more);
    }
    let files: Vec<_> = lists.into_iter().map(Spoilt::of).collect();
    for spoilt in &files {
        let faults: Vec<_> = spoilt.faults.iter().map(Fault::rank).collect();
        assert_eq!(read(&spoilt.file).number, spoilt.answer(), "{faults:?}");
    }
    files
}

#[cfg(test)]
mod tests {
    use super::*;
    use std::collections::BTreeMap;

    /// How many files with two faults have each pair of numbers, at one chunk and at different ones, the first met first.
    fn pairs() -> [BTreeMap<(u32, u32), u32>; 2] {
        let [mut at_one, mut at_two] = [BTreeMap::new(), BTreeMap::new()];
        for spoilt in all() {
            let [mut first, mut second] = spoilt.faults[..] else {
                continue;
            };
            if second.rank() < first.rank() {
                (first, second) = (second, first);
            }
            let pairs = if first.chunk == second.chunk {
                &mut at_one
            } else {
                &mut at_two
            };
            *pairs.entry((first.number, second.number)).or_default() += 1;
        }
        [at_one, at_two]
    }

    /// How many of these files have a number with itself, which shows no order, and how many have two numbers.
    #[test]
    fn so_many_files_show_an_order() {
        let mut files = [0, 0];
        for ((first, second), count) in pairs().into_iter().flatten() {
            files[usize::from(first != second)] += count;
        }
        assert_eq!(files, [64, 247]);
    }

    /// `oracle/README.md` says why no other pair can meet.
    #[test]
    fn every_pairing_that_can_meet_is_there() {
        let [at_one, at_two] = pairs();
        let differ = |pairs: BTreeMap<(u32, u32), u32>| -> Vec<(u32, u32)> {
            pairs
                .into_keys()
                .filter(|(first, second)| first != second)
                .collect()
        };
        let at_format = [(11, 13), (11, 5), (13, 5)];
        let at_data = [(11, 12), (11, 14), (12, 14)];
        let mut expected = [at_format, at_data].concat();
        expected.sort_unstable();
        assert_eq!(differ(at_one), expected);
        let behind = |first: u32, second: &[u32]| -> Vec<(u32, u32)> {
            second.iter().map(|&second| (first, second)).collect()
        };
        let expected = [
            behind(5, &[11, 12, 14]),
            behind(10, &[5, 11, 12, 13, 14]),
            behind(11, &[5, 12, 13, 14]),
            behind(13, &[11, 12, 14]),
        ];
        assert_eq!(differ(at_two), expected.concat());
    }
}
