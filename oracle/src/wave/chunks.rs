//! Files by their chunks: orders, names, sizes, pads, what stands behind, and many chunks.
use super::file::{Chunk, File, Format, counted};

fn format() -> Chunk {
    Chunk::format(Format::at(48_000))
}

/// Chunks of every kind that a walk tells apart.
fn kinds() -> [Chunk; 7] {
    [
        format(),
        Chunk::data(4),
        Chunk::new(b"LIST", *b"INFO"),
        Chunk::new(b"junk", [0xff]).padded(Some(b'd')),
        Chunk::format(Format::at(8_000)),
        Chunk::new(b"fmt ", counted(18)),
        Chunk::data(3),
    ]
}

/// Every sequence of up to three chunks of seven kinds, and of four of the first four.
pub fn orders() -> Vec<Vec<u8>> {
    let kinds = kinds();
    let mut files: Vec<Vec<u8>> = Vec::new();
    for length in 0..4 {
        files.extend(sequences(&kinds, length));
    }
    files.extend(sequences(&kinds[..4], 4));
    files
}

fn sequences(kinds: &[Chunk], length: u32) -> impl Iterator<Item = Vec<u8>> {
    let count = kinds.len();
    (0..count.pow(length)).map(move |number| {
        let at = |place: u32| number / count.pow(place) % count;
        let chunks: Vec<Chunk> = (0..length).map(|place| kinds[at(place)].clone()).collect();
        File::of(chunks).bytes()
    })
}

/// Names that are nearly the right ones, and names that other programs write.
const NAMES: [&[u8; 4]; 26] = [
    b"RIFF",
    b"RIFX",
    b"RF64",
    b"riff",
    b"FFIR",
    b"WAVE",
    b"wave",
    b"EVAW",
    b"AVI ",
    b"fmt ",
    b"fmt\0",
    b"FMT ",
    b"Fmt ",
    b" fmt",
    b" tmf",
    b"data",
    b"DATA",
    b"Data",
    b"dat ",
    b"atad",
    b"dat\xe1",
    b"LIST",
    b"wavl",
    b"slnt",
    b"fact",
    b"\0\0\0\0",
];

/// Each name at each of the four places, and each letter of the right names changed by one bit.
pub fn names() -> Vec<Vec<u8>> {
    let mut files = Vec::new();
    for place in 0..4 {
        for name in NAMES {
            files.push(named(place, |old| *old = *name));
        }
        for letter in 0..4 {
            for bit in 0..8 {
                files.push(named(place, |old| old[letter] ^= 1 << bit));
            }
        }
    }
    files
}

fn named(place: usize, change: impl Fn(&mut [u8; 4])) -> Vec<u8> {
    let mut file = File::of([format(), Chunk::data(2)]);
    change(match place {
        0 => &mut file.riff,
        1 => &mut file.form,
        _ => &mut file.chunks[place - 2].name,
    });
    file.bytes()
}

/// A list that holds the format or the samples isn't entered.
pub fn lists() -> Vec<Vec<u8>> {
    let wrapped = |inner: &[Chunk], form: &[u8; 4]| {
        let inner = inner.iter().flat_map(Chunk::bytes);
        Chunk::new(
            b"LIST",
            form.iter().copied().chain(inner).collect::<Vec<u8>>(),
        )
    };
    let samples = [Chunk::data(4)];
    let both = [format(), Chunk::data(4)];
    let files = [
        File::of([format(), wrapped(&samples, b"wavl")]),
        File::of([format(), wrapped(&samples, b"wavl"), Chunk::data(6)]),
        File::of([wrapped(&both, b"WAVE")]),
        File::of([wrapped(&both, b"WAVE"), Chunk::data(6)]),
        File::of([wrapped(&[format()], b"fmt "), format(), Chunk::data(6)]),
    ];
    files.map(|file| file.bytes()).into()
}

/// What a size may say: small, next to the true one, at the powers of two, where sums in 32 bits come out below, and so that
/// such a sum arrives at the beginning of some chunk, or at 0.
fn said(file: &File, chunk: usize) -> Vec<u32> {
    let body = file.chunks[chunk].body.len() as u32;
    let begin = file.begin(chunk) as u32 + 8;
    let back = (0..=file.chunks.len()).map(|to| (file.begin(to) as u32).wrapping_sub(begin));
    let mut sizes = vec![
        0, 1, 2, 3, 4, 5, 7, 8, 12, 16, 24, 0xff, 0x100, 0xffff, 0x1_0000,
    ];
    sizes.extend((0..7).map(|more| (body + more).wrapping_sub(3)));
    sizes.extend([0x7fff_f000, i32::MAX as u32, 1 << 31, (1 << 31) + 1]);
    sizes.extend((0..26).map(|less| u32::MAX - less));
    sizes.extend([0u32.wrapping_sub(begin), 1u32.wrapping_sub(begin)]);
    sizes.extend(back.flat_map(|size| [size, size.wrapping_sub(1)]));
    sizes
}

/// Each of these sizes at each chunk of a file, the RIFF size the true one and none at all.
pub fn sizes() -> Vec<Vec<u8>> {
    let file = File::of([
        Chunk::new(b"odd ", *b"abc"),
        format(),
        Chunk::data(8),
        Chunk::new(b"LIST", *b"INFO"),
    ]);
    let mut files = Vec::new();
    for chunk in 0..3 {
        for size in said(&file, chunk) {
            let mut file = file.clone();
            file.chunks[chunk].size = Some(size);
            files.push(file.bytes());
            file.size = Some(u32::MAX);
            files.push(file.bytes());
        }
    }
    files
}

/// An odd chunk of each length before `fmt `, before `data` and at the end: its pad of several values, and left out.
pub fn pads() -> Vec<Vec<u8>> {
    let mut files = Vec::new();
    for length in [1, 3, 5, 9] {
        for pad in [Some(0), Some(1), Some(b'd'), Some(b'f'), Some(0xff), None] {
            let odd = Chunk::new(b"note", counted(length)).padded(pad);
            let again = Chunk::new(b"fmt ", counted(length)).padded(pad);
            let samples = Chunk::data(length).padded(pad);
            for chunks in [
                vec![odd.clone(), format(), Chunk::data(4)],
                vec![format(), odd.clone(), Chunk::data(4)],
                vec![format(), again, Chunk::data(4)],
                vec![format(), odd.clone()],
                vec![odd],
                vec![format(), samples.clone()],
                vec![samples, format()],
            ] {
                files.push(File::of(chunks).bytes());
            }
        }
    }
    files
}

/// What stands behind the first `data`, good or not, is never looked at.
pub fn behind() -> Vec<Vec<u8>> {
    let faulty = [
        Chunk::new(b"LIST", []).sized(u32::MAX),
        Chunk::new(b"note", [1]).padded(None),
        Chunk::format(Format::at(48_000)),
        Chunk::format(Format::at(4_000)),
        Chunk::new(b"fmt ", [3; 16]),
        Chunk::new(b"fmt ", [1; 18]),
        Chunk::data(3),
        Chunk::data(4).sized(5),
        Chunk::new(b"data", []).sized(1 << 31),
    ];
    let firsts = [
        Chunk::data(4),
        Chunk::data(0),
        Chunk::data(3),
        Chunk::data(3).padded(None),
    ];
    let mut files = Vec::new();
    for first in &firsts {
        for last in &faulty {
            files.push(File::of([format(), first.clone(), last.clone()]).bytes());
            files.push(File::of([first.clone(), last.clone()]).bytes());
        }
    }
    files
}
