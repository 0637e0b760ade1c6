//! Files by what their `fmt ` says: each field, two fields at once, rates and byte rates, sizes.
use super::file::{Chunk, File, Format};

const FIELDS: [fn(&mut Format, u16); 4] = [
    |format, value| format.tag = value,
    |format, value| format.channels = value,
    |format, value| format.align = value,
    |format, value| format.bits = value,
];

/// What a field may say: right for some field, or not; and right but for its higher byte.
const VALUES: [u16; 20] = [
    0, 1, 2, 3, 4, 6, 7, 8, 15, 16, 17, 24, 32, 0x55, 0x0100, 0x0101, 0x0102, 0x0110, 0xfffe,
    0xffff,
];

const RATES: [u32; 24] = [
    0,
    1,
    2,
    4_000,
    7_998,
    7_999,
    8_000,
    8_001,
    11_025,
    16_000,
    44_100,
    48_000,
    65_536,
    131_072,
    191_999,
    192_000,
    192_001,
    384_000,
    0x0001_0000 + 8_000,
    0x0100_0000 + 8_000,
    0x7fff_ffff,
    0x8000_0000,
    0x8000_0000 + 48_000,
    0xffff_ffff,
];

fn file(format: Format) -> Vec<u8> {
    File::of([Chunk::format(format), Chunk::data(2)]).bytes()
}

/// Each field by each value, at an accepted rate and at another.
pub fn fields() -> Vec<Vec<u8>> {
    let mut files = Vec::new();
    for rate in [48_000, 4_000] {
        for set in FIELDS {
            for value in VALUES {
                let mut format = Format::at(rate);
                set(&mut format, value);
                files.push(file(format));
            }
        }
    }
    files
}

/// Two fields that agree with each other and not with the rest: stereo with its align, 8 bits with theirs, and so on.
pub fn agreeing() -> Vec<Vec<u8>> {
    let mut files = Vec::new();
    for (channels, bits) in [
        (1, 8),
        (1, 16),
        (1, 24),
        (1, 32),
        (2, 8),
        (2, 16),
        (6, 16),
        (0, 16),
    ] {
        for tag in [1, 3, 0xfffe] {
            let align = channels * bits / 8;
            let byte_rate = 48_000 * u32::from(align);
            files.push(file(Format {
                tag,
                channels,
                rate: 48_000,
                byte_rate,
                align,
                bits,
            }));
        }
    }
    files
}

/// Each rate with twice itself (in 32 bits), what is next to it, itself, nothing and everything.
pub fn rates() -> Vec<Vec<u8>> {
    let mut files = Vec::new();
    for rate in RATES {
        let twice = rate.wrapping_mul(2);
        let others = [
            twice,
            twice.wrapping_add(1),
            twice.wrapping_sub(1),
            twice.wrapping_add(0x8000_0000),
            twice.wrapping_add(0x0001_0000),
            rate,
            0,
            u32::MAX,
        ];
        for byte_rate in others {
            let format = Format::at(rate);
            files.push(file(Format {
                byte_rate,
                ..format
            }));
        }
    }
    files
}

/// Each `fmt ` size up to 41 with a body of that size, its fields right as far as they go: before `data`, at the file's
/// end, and with the rate refused as well.
pub fn sizes() -> Vec<Vec<u8>> {
    let mut files = Vec::new();
    for size in 0..42 {
        for rate in [48_000, 4_000] {
            let mut body = Format::at(rate).bytes();
            body.resize(size, 0);
            let format = Chunk::new(b"fmt ", body);
            files.push(File::of([format.clone(), Chunk::data(2)]).bytes());
            files.push(File::of([format.clone()]).bytes());
            files.push(File::of([format.padded(None)]).bytes());
        }
    }
    files
}

/// Each `fmt ` size up to 41 said of a body of 16 bytes.
pub fn said_sizes() -> Vec<Vec<u8>> {
    let said = |size| {
        let format = Chunk::format(Format::at(48_000)).sized(size);
        File::of([format, Chunk::data(4)]).bytes()
    };
    (0..42).map(said).collect()
}
