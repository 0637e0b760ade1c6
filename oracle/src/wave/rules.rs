//! Document 02's W1, "Read our WAVE recordings". The file is cut into chunks first, without asking what they are; then
//! the chunks up to the first `data` are judged, and the first fault of the first faulty one answers.

/// What a reading tells: its number, and rate, place and length in bytes, three zeros where it is refused.
#[derive(Clone, Copy, Debug, PartialEq, Eq)]
pub struct Told {
    pub number: u32,
    pub rate: u32,
    pub place: u64,
    pub length: u64,
}

/// Not RIFF WAVE, or a RIFF size below 4.
pub const NOT_WAVE: u32 = 10;
/// A chunk, its head or its pad byte runs past the end.
pub const RUNS_PAST: u32 = 11;
/// No `fmt ` before `data`, or no `data`.
pub const LACKS: u32 = 12;
/// Another format, byte rate, align or `fmt ` size.
pub const FORMAT: u32 = 13;
pub const RATE: u32 = 5;
pub const ODD: u32 = 14;

/// Names and size, before the chunks.
const RIFF_HEAD: usize = 12;
/// A chunk's name and size.
const HEAD: usize = 8;

/// A chunk as it was cut, with nothing of what lies behind the end.
struct Chunk<'a> {
    name: &'a [u8],
    /// None where the end comes before the head's or the body's.
    body: Option<&'a [u8]>,
    place: usize,
    lacks_pad: bool,
}

impl Chunk<'_> {
    fn is(&self, name: &[u8; 4]) -> bool {
        self.name == name
    }
}

pub fn read(file: &[u8]) -> Told {
    let Some(end) = end(file) else {
        return refused(NOT_WAVE);
    };
    let chunks = walked(cut(file, end));
    if let Some((_, number)) = faults(&chunks).next() {
        return refused(number);
    }
    let Some(data) = chunks.last().filter(|chunk| chunk.is(b"data")) else {
        return refused(LACKS);
    };
    let format = first_format(&chunks).and_then(|at| Format::of(&chunks[at]));
    Told {
        number: 0,
        rate: format.expect("a faultless `data` has one before it").rate,
        place: data.place as u64,
        length: data.body.map_or(0, <[u8]>::len) as u64,
    }
}

const fn refused(number: u32) -> Told {
    Told {
        number,
        rate: 0,
        place: 0,
        length: 0,
    }
}

/// RIFF size plus 8 or the buffer's end, whichever is first; none where it isn't RIFF WAVE.
fn end(file: &[u8]) -> Option<usize> {
    let head = file.first_chunk::<RIFF_HEAD>()?;
    let size = word32(&head[4..]);
    let is_wave = head.starts_with(b"RIFF") && head.ends_with(b"WAVE") && size >= 4;
    is_wave.then(|| file.len().min(size as usize + 8))
}

/// Every chunk from byte 12 to the end, the last perhaps torn by it.
fn cut(file: &[u8], end: usize) -> Vec<Chunk<'_>> {
    let mut chunks = Vec::new();
    let mut rest = &file[RIFF_HEAD..end];
    while !rest.is_empty() {
        let place = end - rest.len() + HEAD;
        let name = &rest[..rest.len().min(4)];
        let whole = rest.split_at_checked(HEAD).and_then(|(head, behind)| {
            let size = word32(&head[4..]) as usize;
            behind.split_at_checked(size)
        });
        let (body, behind) = whole.unzip();
        let padded = body.is_some_and(|body| body.len() % 2 == 1);
        let behind = behind.unwrap_or_default();
        chunks.push(Chunk {
            name,
            body,
            place,
            lacks_pad: padded && behind.is_empty(),
        });
        rest = behind.get(usize::from(padded)..).unwrap_or_default();
    }
    chunks
}

/// The chunks up to and including the first `data`: it ends the walk.
fn walked(mut chunks: Vec<Chunk<'_>>) -> Vec<Chunk<'_>> {
    let data = chunks.iter().position(|chunk| chunk.is(b"data"));
    chunks.truncate(data.map_or(chunks.len(), |at| at + 1));
    chunks
}

/// A refusal's number, and whether it holds of the chunk at a place among those walked.
type Fault = (u32, fn(&[Chunk], usize) -> bool);

/// In the order that decides at one chunk.
const FAULTS: [Fault; 5] = [
    (RUNS_PAST, runs_past),
    (LACKS, lacks_format),
    (FORMAT, is_another_format),
    (RATE, has_another_rate),
    (ODD, is_odd_data),
];

/// Every fault as met: the place of its chunk, and its number.
fn faults(chunks: &[Chunk]) -> impl Iterator<Item = (usize, u32)> {
    (0..chunks.len()).flat_map(move |at| {
        let held = FAULTS.iter().filter(move |(_, holds)| holds(chunks, at));
        held.map(move |&(number, _)| (at, number))
    })
}

/// The pad of `data` isn't looked at.
fn runs_past(chunks: &[Chunk], at: usize) -> bool {
    let chunk = &chunks[at];
    chunk.body.is_none() || chunk.lacks_pad && !chunk.is(b"data")
}

fn lacks_format(chunks: &[Chunk], at: usize) -> bool {
    chunks[at].is(b"data") && first_format(&chunks[..at]).is_none()
}

fn first_format(chunks: &[Chunk]) -> Option<usize> {
    chunks.iter().position(|chunk| chunk.is(b"fmt "))
}

fn is_another_format(chunks: &[Chunk], at: usize) -> bool {
    first_format(chunks) == Some(at)
        && !Format::of(&chunks[at]).is_some_and(|format| format.is_ours())
}

/// Of a `fmt ` of another size no field is looked at.
fn has_another_rate(chunks: &[Chunk], at: usize) -> bool {
    let accepted = 8_000..=192_000;
    first_format(chunks) == Some(at)
        && Format::of(&chunks[at]).is_some_and(|format| !accepted.contains(&format.rate))
}

fn is_odd_data(chunks: &[Chunk], at: usize) -> bool {
    let chunk = &chunks[at];
    chunk.is(b"data") && chunk.body.is_some_and(|body| body.len() % 2 == 1)
}

/// The fields of a `fmt ` of 16 bytes.
struct Format {
    tag: u16,
    channels: u16,
    rate: u32,
    byte_rate: u32,
    align: u16,
    bits: u16,
}

impl Format {
    fn of(chunk: &Chunk) -> Option<Self> {
        let body: &[u8; 16] = chunk.body?.try_into().ok()?;
        Some(Self {
            tag: word16(&body[0..]),
            channels: word16(&body[2..]),
            rate: word32(&body[4..]),
            byte_rate: word32(&body[8..]),
            align: word16(&body[12..]),
            bits: word16(&body[14..]),
        })
    }

    /// The byte rate is rate times 2 over whole numbers, so no rate from 2^31 on has one.
    fn is_ours(&self) -> bool {
        [self.tag, self.channels, self.align, self.bits] == [1, 1, 2, 16]
            && u64::from(self.byte_rate) == 2 * u64::from(self.rate)
    }
}

fn word16(bytes: &[u8]) -> u16 {
    u16::from_le_bytes([bytes[0], bytes[1]])
}

fn word32(bytes: &[u8]) -> u32 {
    u32::from_le_bytes([bytes[0], bytes[1], bytes[2], bytes[3]])
}
