//! Files drawn at random: a good one, with chunks of every kind around what is needed, and most of them spoilt once or a
//! few times.
use super::{
    file::{Chunk, File, Format},
    rules::{Told, read},
};
use crate::random::Random;

/// A file that is accepted, and its answer by the way it was made.
pub struct Good {
    pub file: File,
    pub told: Told,
}

/// One file in four stays good, and is read as it was made.
pub fn file(random: &mut Random) -> Vec<u8> {
    let Good { mut file, told } = good(random);
    let times = random.below(4);
    if times == 0 {
        let bytes = file.bytes();
        assert_eq!(read(&bytes), told, "{bytes:02x?}");
        return bytes;
    }
    for _ in 0..times {
        let spoil = random.pick(&IN_PARTS);
        spoil(&mut file, random);
    }
    let mut bytes = file.bytes();
    if random.below(3) == 0 {
        spoil_bytes(&mut bytes, random);
    }
    bytes
}

/// Skipped chunks, `fmt `, skipped ones with later `fmt `s among them, `data`, and behind it anything. The RIFF size is the
/// true one, or another that doesn't end before the samples.
pub fn good(random: &mut Random) -> Good {
    let rate = accepted_rate(random);
    let mut file = File::of([]);
    some_chunks(&mut file, skipped, random);
    file.chunks.push(Chunk::format(Format::at(rate)));
    some_chunks(&mut file, skipped_behind_format, random);
    let place = file.begin(file.chunks.len()) + 8;
    let length = 2 * random.below(9) as usize;
    file.chunks.push(Chunk::data(length));
    some_chunks(&mut file, any_chunk, random);
    if random.below(4) == 0 {
        file.behind = bytes(9, random);
    }
    if random.below(3) == 0 {
        let least = (place + length - 8) as u32;
        let far = random.bits32();
        let near = least.saturating_add(random.below(20) as u32);
        file.size = Some(random.pick(&[least, near, far.max(least), u32::MAX]));
    }
    let (place, length) = (place as u64, length as u64);
    let told = Told {
        number: 0,
        rate,
        place,
        length,
    };
    Good { file, told }
}

/// Mostly none, at times up to three.
fn some_chunks(file: &mut File, draw: fn(&mut Random) -> Chunk, random: &mut Random) {
    let most = random.pick(&[0, 0, 1, 1, 3]);
    let count = random.below(most + 1);
    file.chunks.extend((0..count).map(|_| draw(random)));
}

pub fn accepted_rate(random: &mut Random) -> u32 {
    match random.below(3) {
        0 => random.pick(&[8_000, 8_001, 191_999, 192_000]),
        1 => random.pick(&[11_025, 16_000, 22_050, 44_100, 48_000, 96_000]),
        _ => random.between(8_000, 192_000) as u32,
    }
}

fn any_rate(random: &mut Random) -> u32 {
    match random.below(3) {
        0 => random.pick(&[0, 1, 7_999, 192_001, 0x8000_0000, 0x8000_1f40, u32::MAX]),
        1 => random.bits32(),
        _ => accepted_rate(random),
    }
}

const SKIPPED: [&[u8; 4]; 10] = [
    b"LIST",
    b"fact",
    b"bext",
    b"JUNK",
    b"\0\0\0\0",
    b"fmt\0",
    b"FMT ",
    b"DATA",
    b"dat ",
    b"RIFF",
];

/// A chunk that isn't known, its pad of any value.
fn skipped(random: &mut Random) -> Chunk {
    let name = random.pick(&SKIPPED);
    let pad = Some(random.bits() as u8);
    Chunk::new(name, bytes(7, random)).padded(pad)
}

fn skipped_behind_format(random: &mut Random) -> Chunk {
    match random.below(3) {
        0 => Chunk::format(any_format(random)),
        1 => Chunk::new(b"fmt ", bytes(20, random)),
        _ => skipped(random),
    }
}

fn any_chunk(random: &mut Random) -> Chunk {
    let odd = random.below(12) as usize;
    let any = random.bits32();
    match random.below(4) {
        0 => Chunk::data(odd),
        1 => skipped(random).sized(any),
        _ => skipped_behind_format(random),
    }
}

fn bytes(most: u64, random: &mut Random) -> Vec<u8> {
    let length = random.below(most + 1);
    (0..length).map(|_| random.bits() as u8).collect()
}

/// A format with one field or the rate changed; at times both, and at times the byte rate isn't changed with the rate.
fn any_format(random: &mut Random) -> Format {
    let mut format = Format::at(any_rate(random));
    if random.coin() {
        return format;
    }
    let small = random.pick(&[0, 1, 2, 3, 4, 8, 15, 16, 17, 24, 32, 0x0100, 0x0102, 0xfffe]);
    match random.below(6) {
        0 => format.tag = small,
        1 => format.channels = small,
        2 => format.align = small,
        3 => format.bits = small,
        4 => {
            format.byte_rate = format
                .byte_rate
                .wrapping_add(random.pick(&[1, 2, u32::MAX]))
        }
        _ => format.rate = any_rate(random),
    }
    format
}

/// A size that is a little off, small, at the powers of two, or brings a sum in 32 bits back to some chunk.
fn any_size(file: &File, random: &mut Random) -> u32 {
    let at = random.below(file.chunks.len() as u64 + 1) as usize;
    let to = random.below(file.chunks.len() as u64 + 1) as usize;
    let back = (file.begin(to) as u32).wrapping_sub(file.begin(at) as u32 + 8);
    let length = file.bytes().len() as u64;
    let inside = random.below(length + 9) as u32;
    let top = u32::MAX - random.below(24) as u32;
    let small = random.below(5) as u32;
    random.pick(&[
        back,
        back,
        inside,
        inside,
        top,
        small,
        1 << 31,
        i32::MAX as u32,
    ])
}

fn any_place(file: &File, random: &mut Random) -> usize {
    random.below(file.chunks.len() as u64) as usize
}

/// How a file is spoilt in its parts; it always has a chunk.
const IN_PARTS: [fn(&mut File, &mut Random); 12] = [
    spoil_riff_size,
    spoil_riff_size,
    spoil_size,
    spoil_size,
    spoil_pad,
    spoil_name,
    spoil_format,
    spoil_format,
    spoil_rate,
    spoil_rate,
    spoil_data,
    spoil_order,
];

fn spoil_riff_size(file: &mut File, random: &mut Random) {
    let most = file.bytes().len() as u64;
    let inside = random.below(most) as u32;
    let other = any_size(file, random);
    file.size = Some(random.pick(&[inside, other]));
}

fn spoil_size(file: &mut File, random: &mut Random) {
    let size = any_size(file, random);
    let at = any_place(file, random);
    let near = random.between(-2, 2) as u32;
    let chunk = &mut file.chunks[at];
    let near = (chunk.body.len() as u32).wrapping_add(near);
    chunk.size = Some(random.pick(&[near, size]));
}

fn spoil_pad(file: &mut File, random: &mut Random) {
    let at = any_place(file, random);
    file.chunks[at].body.push(7);
    file.chunks[at].pad = random.pick(&[None, Some(1)]);
}

fn spoil_name(file: &mut File, random: &mut Random) {
    let at = any_place(file, random);
    let letter = random.below(4) as usize;
    match random.below(6) {
        0 => file.riff = random.pick(&[*b"RIFX", *b"RF64", *b"riff"]),
        1 => file.form[letter] ^= 0x20,
        _ => file.chunks[at].name[letter] ^= 0x20,
    }
}

fn spoil_format(file: &mut File, random: &mut Random) {
    let first = file.chunks.iter().position(|chunk| chunk.name == *b"fmt ");
    let at = first.unwrap_or(0);
    let mut body = any_format(random).bytes();
    match random.below(4) {
        0 => body.truncate(random.below(16) as usize),
        1 => body.extend(bytes(4, random)),
        _ => {}
    }
    file.chunks[at].body = body;
}

/// A rate that is refused, with its byte rate.
fn spoil_rate(file: &mut File, random: &mut Random) {
    let below = random.below(8_000) as u32;
    let above = 192_001 + (random.bits32() >> random.between(1, 12));
    let rate = random.pick(&[0, 7_999, 192_001, below, above]);
    let first = file.chunks.iter().position(|chunk| chunk.name == *b"fmt ");
    file.chunks[first.unwrap_or(0)].body = Format::at(rate).bytes();
}

fn spoil_data(file: &mut File, random: &mut Random) {
    let first = file.chunks.iter().position(|chunk| chunk.name == *b"data");
    let length = 1 + 2 * random.below(5) as usize;
    let pad = random.pick(&[None, Some(0)]);
    file.chunks[first.unwrap_or(0)] = Chunk::data(length).padded(pad);
}

/// Chunks left out, doubled or exchanged.
fn spoil_order(file: &mut File, random: &mut Random) {
    let (at, other) = (any_place(file, random), any_place(file, random));
    match random.below(3) {
        0 if file.chunks.len() > 1 => drop(file.chunks.remove(at)),
        1 => file.chunks.insert(other, file.chunks[at].clone()),
        _ => file.chunks.swap(at, other),
    }
}

/// The buffer's end moved, or a byte or two changed.
fn spoil_bytes(bytes: &mut Vec<u8>, random: &mut Random) {
    let at = random.below(bytes.len() as u64) as usize;
    match random.below(3) {
        0 => bytes.truncate(at),
        1 => bytes[at] = random.pick(&[0, 1, 0x20, 0x7f, 0x80, 0xff]),
        _ => {
            bytes[at] = random.bits() as u8;
            let other = random.below(bytes.len() as u64) as usize;
            bytes[other] = bytes[other].wrapping_add(1);
        }
    }
}

#[cfg(test)]
mod tests {
    use super::*;

    #[test]
    fn a_file_made_good_is_read_as_it_was_made() {
        let mut random = Random::new(1);
        for _ in 0..20_000 {
            let Good { file, told } = good(&mut random);
            assert_eq!(read(&file.bytes()), told, "{:02x?}", file.bytes());
        }
    }
}
