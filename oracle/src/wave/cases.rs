//! The stored list, by families: what a file says, then where it ends, then bytes changed, other programs' recordings and
//! files drawn at random.
use super::{
    chunks, drawn, faults,
    file::{Chunk, File, Format, counted},
    formats, record,
    recordings::RECORDINGS,
};
use crate::random::Random;

/// How many files of the stored list are drawn at random.
const DRAWN: usize = 600;

/// Every family, and a record that ends too soon.
pub fn stored() -> Vec<u8> {
    let files = families().into_iter().flat_map(|(_, files)| files);
    let mut list: Vec<u8> = files.flat_map(|file| record(&file)).collect();
    let last = record(&File::plain(48_000, 2).bytes());
    list.extend(&last[..last.len() - 1]);
    list
}

fn families() -> Vec<(&'static str, Vec<Vec<u8>>)> {
    let mut random = Random::new(21);
    let spoilt = faults::all().into_iter().map(|spoilt| spoilt.file);
    let recordings = RECORDINGS.iter().map(|(_, file)| file.to_vec());
    vec![
        ("up to three faults", spoilt.collect()),
        ("fields of fmt", formats::fields()),
        ("fields that agree", formats::agreeing()),
        ("rates and byte rates", formats::rates()),
        ("sizes of fmt", formats::sizes()),
        ("sizes said of fmt", formats::said_sizes()),
        ("orders of chunks", chunks::orders()),
        ("names", chunks::names()),
        ("lists", chunks::lists()),
        ("sizes of chunks", chunks::sizes()),
        ("pads", chunks::pads()),
        ("behind data", chunks::behind()),
        ("short buffers", short()),
        ("cut at every length", cuts()),
        ("RIFF sizes", riff_sizes()),
        ("tails", tails()),
        ("many chunks", many()),
        ("a long file", vec![long()]),
        ("a byte changed", changed(&mut random)),
        ("recordings", recordings.collect()),
        ("recordings changed", recordings_changed(&mut random)),
        (
            "drawn",
            (0..DRAWN).map(|_| drawn::file(&mut random)).collect(),
        ),
    ]
}

/// A plain file, one with skipped chunks, one with a second `fmt `, and one with chunks behind the samples.
fn good() -> [File; 4] {
    let format = || Chunk::format(Format::at(44_100));
    let other = Chunk::format(Format::at(8_000));
    let odd = Chunk::new(b"note", *b"odd").padded(Some(0xff));
    let list = Chunk::new(b"LIST", *b"INFO");
    [
        File::plain(44_100, 6),
        File::of([list.clone(), format(), odd.clone(), Chunk::data(4)]),
        File::of([odd.clone(), format(), other, Chunk::data(2)]),
        File::of([format(), Chunk::data(4), odd, list]),
    ]
}

/// Fewer bytes than a RIFF head has, and just as many.
fn short() -> Vec<Vec<u8>> {
    let plain = File::plain(48_000, 0).bytes();
    let mut files = Vec::new();
    for length in 0..14 {
        files.extend([
            plain[..length].to_vec(),
            vec![0; length],
            vec![0xff; length],
        ]);
    }
    files
}

/// Each good file with the end at each place: the buffer's, the RIFF size's, and both.
fn cuts() -> Vec<Vec<u8>> {
    let mut files = Vec::new();
    for file in good() {
        let whole = file.bytes();
        for length in 12..whole.len() {
            let ended = file.clone().ended(length).bytes();
            files.push(whole[..length].to_vec());
            files.push(ended[..length].to_vec());
            files.push(ended);
        }
    }
    files
}

/// RIFF sizes around every border, with bytes behind the file that look like more chunks.
fn riff_sizes() -> Vec<Vec<u8>> {
    let mut files = Vec::new();
    let mut sizes: Vec<u32> = (0..16).collect();
    sizes.extend([1 << 31, (1 << 31) - 1, 0x7fff_f024, 0x00ff_ffff]);
    sizes.extend((0..16).map(|less| u32::MAX - less));
    for mut file in good() {
        file.behind = [Chunk::data(4).bytes(), vec![0; 3]].concat();
        let length = file.bytes().len() as u32;
        for size in sizes.iter().copied().chain(length - 24..length + 4) {
            file.size = Some(size);
            files.push(file.bytes());
        }
    }
    files
}

/// Up to nine bytes behind the last chunk, where no `data` came and where it did; inside the RIFF size and outside.
fn tails() -> Vec<Vec<u8>> {
    let mut files = Vec::new();
    let format = || Chunk::format(Format::at(44_100));
    let bases = [
        File::of([format()]),
        File::of([]),
        File::of([format(), Chunk::new(b"note", *b"odd")]),
        File::plain(44_100, 2),
    ];
    for base in bases {
        for tail in [
            b"data\0\0\0\0\0",
            b"fmt \x10\0\0\0\x01",
            b"\0\0\0\0\0\0\0\0\0",
        ] {
            for length in 0..10 {
                let mut file = base.clone();
                file.behind = tail[..length].to_vec();
                files.push(file.bytes());
                let whole = file.bytes().len();
                files.push(file.ended(whole).bytes());
            }
        }
    }
    files
}

/// As many chunks as a file of its length can have: a walk may not give up early.
fn many() -> Vec<Vec<u8>> {
    let mut files = Vec::new();
    for count in [1, 2, 3, 7, 16, 31, 64, 100, 257] {
        let empty = vec![Chunk::new(b"none", []); count];
        let around =
            |first: Vec<Chunk>, last: Vec<Chunk>| File::of([first, empty.clone(), last].concat());
        let format = || Chunk::format(Format::at(44_100));
        files.push(around(vec![format()], vec![Chunk::data(0)]).bytes());
        files.push(around(vec![], vec![format(), Chunk::data(2)]).bytes());
        files.push(around(vec![], vec![Chunk::data(0)]).bytes());
        files.push(around(vec![], vec![]).bytes());
    }
    let mut chunks = vec![Chunk::new(b"none", []); 1_000];
    chunks.extend(File::plain(44_100, 2).chunks);
    files.push(File::of(chunks).bytes());
    files
}

/// A place and a length above 65,535.
fn long() -> Vec<u8> {
    let format = Chunk::format(Format::at(192_000));
    let list = Chunk::new(b"LIST", counted(0x1_0001));
    File::of([format, list, Chunk::data(0x1_0002)]).bytes()
}

/// Each byte of the first three good files 0, 1, all ones, one more, and any.
fn changed(random: &mut Random) -> Vec<Vec<u8>> {
    let mut files = Vec::new();
    for file in &good()[..3] {
        let bytes = file.bytes();
        for (at, &byte) in bytes.iter().enumerate() {
            let any = random.bits() as u8;
            for other in [0, 1, 0xff, byte.wrapping_add(1), any] {
                let mut bytes = bytes.clone();
                bytes[at] = other;
                files.push(bytes);
            }
        }
    }
    files
}

/// Each recording cut somewhere, with a byte among its first 44 changed, and with some byte changed.
fn recordings_changed(random: &mut Random) -> Vec<Vec<u8>> {
    let mut files = Vec::new();
    for (_, file) in RECORDINGS {
        let length = file.len() as u64;
        let cut = random.below(length) as usize;
        files.push(file[..cut].to_vec());
        for end in [length.min(44), length] {
            let mut bytes = file.to_vec();
            let at = random.below(end) as usize;
            bytes[at] = random.bits() as u8;
            files.push(bytes);
        }
    }
    files
}

#[cfg(test)]
mod tests {
    use super::{
        super::{files, rules::read},
        *,
    };
    use std::collections::BTreeMap;

    /// Said where it is run with --nocapture.
    #[test]
    fn the_stored_list_has_what_it_needs() {
        let mut answers = BTreeMap::<u32, u32>::new();
        for (name, files) in families() {
            let accepted = files.iter().filter(|file| read(file).number == 0).count();
            println!("{:>6} {accepted:>6} accepted, {name}", files.len());
            for file in &files {
                *answers.entry(read(file).number).or_default() += 1;
            }
        }
        println!("{answers:?}");
        assert_eq!(
            answers.keys().copied().collect::<Vec<_>>(),
            [0, 5, 10, 11, 12, 13, 14]
        );
        assert!(answers.values().all(|&count| count >= 100));
        let list = stored();
        assert_eq!(files(&list).count() as u32, answers.values().sum());
        assert!(list.len() < 700_000, "{}", list.len());
    }
}
