//! WAVE files in parts, each of which a list can spoil: a size is what is true unless another is set.

/// A `fmt ` chunk's fields.
#[derive(Clone, Copy)]
pub struct Format {
    pub tag: u16,
    pub channels: u16,
    pub rate: u32,
    pub byte_rate: u32,
    pub align: u16,
    pub bits: u16,
}

impl Format {
    /// One channel of 16 bits. A rate from 2^31 on has no byte rate; it gets what 32 bits leave of it.
    pub const fn at(rate: u32) -> Self {
        Self {
            tag: 1,
            channels: 1,
            rate,
            byte_rate: rate.wrapping_mul(2),
            align: 2,
            bits: 16,
        }
    }

    pub fn bytes(self) -> Vec<u8> {
        let mut bytes = Vec::new();
        bytes.extend(self.tag.to_le_bytes());
        bytes.extend(self.channels.to_le_bytes());
        bytes.extend(self.rate.to_le_bytes());
        bytes.extend(self.byte_rate.to_le_bytes());
        bytes.extend(self.align.to_le_bytes());
        bytes.extend(self.bits.to_le_bytes());
        bytes
    }
}

#[derive(Clone)]
pub struct Chunk {
    pub name: [u8; 4],
    /// The size that the head says, where it isn't the body's.
    pub size: Option<u32>,
    pub body: Vec<u8>,
    /// Behind an odd body; none where it is left out.
    pub pad: Option<u8>,
}

impl Chunk {
    pub fn new(name: &[u8; 4], body: impl Into<Vec<u8>>) -> Self {
        Self {
            name: *name,
            size: None,
            body: body.into(),
            pad: Some(0),
        }
    }

    pub fn format(format: Format) -> Self {
        Self::new(b"fmt ", format.bytes())
    }

    /// Its bytes count up, so that no two places look the same.
    pub fn data(length: usize) -> Self {
        Self::new(b"data", counted(length))
    }

    pub fn sized(mut self, size: u32) -> Self {
        self.size = Some(size);
        self
    }

    pub fn padded(mut self, pad: Option<u8>) -> Self {
        self.pad = pad;
        self
    }

    pub fn bytes(&self) -> Vec<u8> {
        let size = self.size.unwrap_or(self.body.len() as u32);
        let pad = self.pad.filter(|_| self.body.len() % 2 == 1);
        let mut bytes = self.name.to_vec();
        bytes.extend(size.to_le_bytes());
        bytes.extend(&self.body);
        bytes.extend(pad);
        bytes
    }
}

pub fn counted(length: usize) -> Vec<u8> {
    (0..length)
        .map(|at| 0x81u8.wrapping_add(at as u8))
        .collect()
}

#[derive(Clone)]
pub struct File {
    pub riff: [u8; 4],
    /// The RIFF size, where it isn't that of the form's name and the chunks.
    pub size: Option<u32>,
    pub form: [u8; 4],
    pub chunks: Vec<Chunk>,
    /// Behind the last chunk, and outside the RIFF size.
    pub behind: Vec<u8>,
}

impl File {
    pub fn of(chunks: impl Into<Vec<Chunk>>) -> Self {
        Self {
            riff: *b"RIFF",
            size: None,
            form: *b"WAVE",
            chunks: chunks.into(),
            behind: Vec::new(),
        }
    }

    /// The 44 bytes that most programs write, and the samples.
    pub fn plain(rate: u32, length: usize) -> Self {
        Self::of([Chunk::format(Format::at(rate)), Chunk::data(length)])
    }

    /// Where a chunk's head begins; behind the last one, where the next would.
    pub fn begin(&self, chunk: usize) -> usize {
        let before = self.chunks[..chunk].iter();
        12 + before.map(|chunk| chunk.bytes().len()).sum::<usize>()
    }

    /// The RIFF size that ends the walk at a place.
    pub fn ended(mut self, end: usize) -> Self {
        self.size = Some(end as u32 - 8);
        self
    }

    pub fn bytes(&self) -> Vec<u8> {
        let chunks: Vec<u8> = self.chunks.iter().flat_map(Chunk::bytes).collect();
        let size = self.size.unwrap_or(4 + chunks.len() as u32);
        let mut bytes = self.riff.to_vec();
        bytes.extend(size.to_le_bytes());
        bytes.extend(self.form);
        bytes.extend(chunks);
        bytes.extend(&self.behind);
        bytes
    }
}
