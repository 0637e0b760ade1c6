//! Rows written out by hand from document 02: a file as bytes, and what it says.
use super::rules::{Told, read};

/// A file of 46 bytes as most programs write it: 48,000 Hz, one sample.
const PLAIN: [u8; 46] = *b"RIFF\x26\0\0\0WAVE\
    fmt \x10\0\0\0\x01\0\x01\0\x80\xbb\0\0\x00\x77\x01\0\x02\0\x10\0\
    data\x02\0\0\0\xfe\xca";

const FORMAT: &[u8; 24] = b"fmt \x10\0\0\0\x01\0\x01\0\x80\xbb\0\0\x00\x77\x01\0\x02\0\x10\0";

fn found(rate: u32, place: u64, length: u64) -> Told {
    Told {
        number: 0,
        rate,
        place,
        length,
    }
}

fn refused(number: u32) -> Told {
    Told {
        number,
        rate: 0,
        place: 0,
        length: 0,
    }
}

/// RIFF, a size, WAVE, and parts.
fn riff(size: u32, parts: &[&[u8]]) -> Vec<u8> {
    let size = size.to_le_bytes();
    [&[b"RIFF", &size[..], b"WAVE"], parts].concat().concat()
}

/// With the RIFF size that it has.
fn wave(parts: &[&[u8]]) -> Vec<u8> {
    let length: usize = parts.iter().map(|part| part.len()).sum();
    riff(4 + length as u32, parts)
}

fn with(at: usize, bytes: &[u8]) -> Vec<u8> {
    let mut file = PLAIN.to_vec();
    file[at..at + bytes.len()].copy_from_slice(bytes);
    file
}

#[test]
fn a_plain_file() {
    assert_eq!(read(&PLAIN), found(48_000, 44, 2));
}

/// 10: shorter than a RIFF head, another name, a RIFF size below 4; at 4 there is no `data`.
#[test]
fn not_riff_wave() {
    for length in 0..12 {
        assert_eq!(read(&PLAIN[..length]), refused(10));
    }
    for (at, name) in [
        (0, b"RIFX"),
        (0, b"RF64"),
        (0, b"riff"),
        (8, b"wave"),
        (8, b"AVI "),
    ] {
        assert_eq!(read(&with(at, name)), refused(10));
    }
    for size in 0..4 {
        assert_eq!(read(&with(4, &[size, 0, 0, 0])), refused(10));
    }
    assert_eq!(read(&with(4, &[4, 0, 0, 0])), refused(12));
    assert_eq!(read(&PLAIN[..12]), refused(12));
}

/// The end: the RIFF size plus 8, in no 32 bits, or the buffer's, whichever is first.
#[test]
fn the_end() {
    for size in [
        0x27,
        0x1000,
        0x7fff_f024,
        0xffff_fff7,
        0xffff_fff8,
        0xffff_ffff_u32,
    ] {
        assert_eq!(read(&with(4, &size.to_le_bytes())), found(48_000, 44, 2));
    }
    // Inside the samples, the head of `data` and `fmt `; and exactly before `data`.
    for size in [0x25, 0x24, 0x23, 0x1d, 0x1b, 0x05] {
        assert_eq!(read(&with(4, &[size, 0, 0, 0])), refused(11));
    }
    assert_eq!(read(&with(4, &[0x1c, 0, 0, 0])), refused(12));
    let longer = [&PLAIN[..], b"data\xff\xff\xff\xff"].concat();
    assert_eq!(read(&longer), found(48_000, 44, 2));
    for length in [45, 44, 43, 37, 35, 20, 13] {
        assert_eq!(read(&PLAIN[..length]), refused(11));
    }
    assert_eq!(read(&PLAIN[..36]), refused(12));
}

/// A head that ends exactly at the end is whole.
#[test]
fn an_empty_data() {
    assert_eq!(
        read(&wave(&[FORMAT, b"data\0\0\0\0"])),
        found(48_000, 44, 0)
    );
    assert_eq!(read(&wave(&[b"data\0\0\0\0"])), refused(12));
}

/// Sizes past the end, also where a sum in 32 bits comes out inside.
#[test]
fn a_size_past_the_end() {
    for size in [
        3,
        4,
        0x7fff_f000,
        0x8000_0000,
        0xffff_ffd4,
        0xffff_ffd6,
        0xffff_ffff_u32,
    ] {
        assert_eq!(read(&with(40, &size.to_le_bytes())), refused(11));
    }
    for size in [0x1b, 0x8000_0010, 0xffff_fff0, 0xffff_ffff_u32] {
        assert_eq!(read(&with(16, &size.to_le_bytes())), refused(11));
    }
}

/// The pad of a skipped chunk has any value, and lies before the end.
#[test]
fn pads() {
    for pad in [b"\0", b"d", b"\xff"] {
        let file = wave(&[b"note\x01\0\0\0x", pad, FORMAT, b"data\x02\0\0\0ab"]);
        assert_eq!(read(&file), found(48_000, 54, 2));
    }
    assert_eq!(read(&wave(&[FORMAT, b"note\x01\0\0\0x"])), refused(11));
    assert_eq!(
        read(&riff(37, &[FORMAT, b"note\x01\0\0\0x\0"])),
        refused(11)
    );
    assert_eq!(read(&wave(&[FORMAT, b"note\x01\0\0\0x\0"])), refused(12));
    // The pad left out: what follows is read one byte off.
    assert_eq!(
        read(&wave(&[FORMAT, b"note\x01\0\0\0xdata\x02\0\0\0ab"])),
        refused(11)
    );
}

/// Odd data is 14 with its pad, without it, and with the end before the pad.
#[test]
fn odd_data() {
    assert_eq!(read(&wave(&[FORMAT, b"data\x03\0\0\0abc\0"])), refused(14));
    assert_eq!(read(&wave(&[FORMAT, b"data\x03\0\0\0abc"])), refused(14));
    assert_eq!(
        read(&riff(39, &[FORMAT, b"data\x03\0\0\0abc\0"])),
        refused(14)
    );
    assert_eq!(
        read(&riff(38, &[FORMAT, b"data\x03\0\0\0abc\0"])),
        refused(11)
    );
    assert_eq!(read(&wave(&[b"data\x03\0\0\0abc\0"])), refused(12));
    assert_eq!(read(&wave(&[b"data\x05\0\0\0abc\0"])), refused(11));
}

/// Later ones are skipped unread, whatever they say, but not past the end.
#[test]
fn a_second_format() {
    let data = b"data\x02\0\0\0ab";
    for second in [
        &b"fmt \0\0\0\0"[..],
        b"fmt \x02\0\0\0zz",
        b"fmt \x01\0\0\0z\0",
    ] {
        let place = 44 + second.len() as u64;
        assert_eq!(
            read(&wave(&[FORMAT, second, data])),
            found(48_000, place, 2)
        );
    }
    let mut other = *FORMAT;
    other[12..20].copy_from_slice(b"\x40\x1f\0\0\x80\x3e\0\0");
    assert_eq!(read(&wave(&[FORMAT, &other, data])), found(48_000, 68, 2));
    assert_eq!(read(&wave(&[&other, FORMAT, data])), found(8_000, 68, 2));
    assert_eq!(read(&wave(&[FORMAT, b"fmt \x01\0\0\0z"])), refused(11));
    assert_eq!(
        read(&wave(&[b"fmt \x02\0\0\0zz", FORMAT, data])),
        refused(13)
    );
    assert_eq!(read(&wave(&[data, FORMAT])), refused(12));
}

/// Each field by itself; with a rate that is refused it is still 13.
#[test]
fn another_format() {
    let fields: [(usize, &[u8]); 10] = [
        (20, &[3, 0]),
        (20, &[1, 1]),
        (20, &[0xfe, 0xff]),
        (22, &[2, 0]),
        (22, &[0, 0]),
        (28, &[1, 0x77, 1, 0]),
        (28, &[0x80, 0xbb, 0, 0]),
        (32, &[4, 0]),
        (34, &[8, 0]),
        (34, &[16, 1]),
    ];
    for (at, bytes) in fields {
        assert_eq!(read(&with(at, bytes)), refused(13));
    }
    assert_eq!(read(&with(24, &[0xa0, 0x0f, 0, 0])), refused(13));
    assert_eq!(read(&wave(&[b"fmt \0\0\0\0"])), refused(13));
    assert_eq!(
        read(&wave(&[
            b"fmt \x12\0\0\0",
            &FORMAT[8..],
            b"\0\0data\0\0\0\0"
        ])),
        refused(13)
    );
    assert_eq!(
        read(&wave(&[b"fmt \x0f\0\0\0", &FORMAT[8..23]])),
        refused(11)
    );
    assert_eq!(read(&wave(&[b"fmt \x0f\0\0\0", &FORMAT[8..]])), refused(13));
}

/// Twice the rate over whole numbers: 80000000h has no byte rate.
#[test]
fn rates() {
    let at = |rate: u32, byte_rate: u32| {
        let rates = [rate.to_le_bytes(), byte_rate.to_le_bytes()].concat();
        read(&with(24, &rates))
    };
    assert_eq!(at(7_999, 15_998), refused(5));
    assert_eq!(at(8_000, 16_000), found(8_000, 44, 2));
    assert_eq!(at(192_000, 384_000), found(192_000, 44, 2));
    assert_eq!(at(192_001, 384_002), refused(5));
    assert_eq!(at(0, 0), refused(5));
    assert_eq!(at(0x7fff_ffff, 0xffff_fffe), refused(5));
    assert_eq!(at(0x8000_0000, 0), refused(13));
    assert_eq!(at(0x8000_bb80, 96_000), refused(13));
}

/// The earlier chunk's fault answers, and a bad first `fmt ` isn't mended by a good one.
#[test]
fn faults_as_met() {
    let slow = b"fmt \x10\0\0\0\x01\0\x01\0\xa0\x0f\0\0\x40\x1f\0\0\x02\0\x10\0";
    let stereo = b"fmt \x10\0\0\0\x01\0\x02\0\x80\xbb\0\0\x00\xee\x02\0\x04\0\x10\0";
    for (format, number) in [(slow, 5), (stereo, 13)] {
        assert_eq!(read(&wave(&[format])), refused(number));
        assert_eq!(
            read(&wave(&[format, FORMAT, b"data\x02\0\0\0ab"])),
            refused(number)
        );
        assert_eq!(
            read(&wave(&[format, b"data\x03\0\0\0abc\0"])),
            refused(number)
        );
        assert_eq!(
            read(&wave(&[format, b"LIST\xff\xff\xff\xff"])),
            refused(number)
        );
        assert_eq!(read(&wave(&[format, b"LI"])), refused(number));
        assert_eq!(read(&wave(&[b"LIST\x01\0\0\0a", format])), refused(11));
    }
}

/// A list isn't entered; names are four bytes exactly.
#[test]
fn other_chunks() {
    let wavl = b"LIST\x0e\0\0\0wavldata\x02\0\0\0ab";
    assert_eq!(read(&wave(&[FORMAT, wavl])), refused(12));
    assert_eq!(
        read(&wave(&[FORMAT, wavl, b"data\x02\0\0\0ab"])),
        found(48_000, 66, 2)
    );
    for name in [b"DATA", b"Data", b"dat ", b"atad"] {
        assert_eq!(read(&with(36, name)), refused(12));
    }
    for name in [b"fmt\0", b"FMT ", b"Fmt ", b" fmt"] {
        assert_eq!(read(&with(12, name)), refused(12));
    }
}
