//! Rows written out by hand from document 02: what is asked, what it says, and the output behind it as bytes.
use super::rules::{Written, write};

const fn done(length: u32) -> Written {
    Written { number: 0, length }
}

const fn refused(number: u32) -> Written {
    Written { number, length: 0 }
}

/// What a writing says, over so many bytes of A5; where it is refused they are all there.
fn said(rate: u32, length: usize, room: usize) -> Written {
    let before = vec![0xa5; room];
    let (written, output) = write(rate, &vec![0x11; length], &before);
    if written.number != 0 {
        assert!(output == before, "{rate} {length} {room}");
    }
    written
}

/// 48,000 Hz, one sample: the file that the reader's rows begin with.
#[test]
fn one_sample() {
    let (written, output) = write(48_000, b"\xfe\xca", &[0; 46]);
    assert_eq!(written, done(46));
    assert_eq!(
        output,
        b"RIFF\x26\0\0\0WAVE\
            fmt \x10\0\0\0\x01\0\x01\0\x80\xbb\0\0\x00\x77\x01\0\x02\0\x10\0\
            data\x02\0\0\0\xfe\xca"
    );
}

/// 8,000 Hz; what lies behind the 44 bytes stays.
#[test]
fn no_samples() {
    let (written, output) = write(8_000, b"", &[0xff; 47]);
    assert_eq!(written, done(44));
    assert_eq!(
        output,
        b"RIFF\x24\0\0\0WAVE\
            fmt \x10\0\0\0\x01\0\x01\0\x40\x1f\0\0\x80\x3e\0\0\x02\0\x10\0\
            data\0\0\0\0\xff\xff\xff"
    );
}

/// 192,000 Hz, samples that look like a head, over a longer file, whose end stays.
#[test]
fn over_an_earlier_file() {
    let earlier = b"RIFF\x34\0\0\0WAVE\
        fmt \x10\0\0\0\x01\0\x01\0\x40\x1f\0\0\x80\x3e\0\0\x02\0\x10\0\
        data\x10\0\0\x000123456789abcdef";
    let (written, output) = write(192_000, b"data\x02\0\0\0", earlier);
    assert_eq!(written, done(52));
    assert_eq!(
        output,
        b"RIFF\x2c\0\0\0WAVE\
            fmt \x10\0\0\0\x01\0\x01\0\0\xee\x02\0\0\xdc\x05\0\x02\0\x10\0\
            data\x08\0\0\0data\x02\0\0\089abcdef"
    );
}

/// 44,100 Hz; sizes of two, three and four bytes.
#[test]
fn long_files() {
    let sizes: [(usize, &[u8; 4], &[u8; 4]); 4] = [
        (300, b"\x50\x01\0\0", b"\x2c\x01\0\0"),
        (65_536, b"\x24\0\x01\0", b"\0\0\x01\0"),
        (1_048_540, b"\0\0\x10\0", b"\xdc\xff\x0f\0"),
        (1_048_576, b"\x24\0\x10\0", b"\0\0\x10\0"),
    ];
    for (length, riff, data) in sizes {
        let samples: Vec<u8> = (0..length).map(|at| (at % 253) as u8).collect();
        let (written, output) = write(44_100, &samples, &vec![0x77; length + 46]);
        assert_eq!(written, done(44 + length as u32));
        assert_eq!(output[..4], *b"RIFF");
        assert_eq!(output[4..8], *riff);
        assert_eq!(
            output[8..40],
            *b"WAVEfmt \x10\0\0\0\x01\0\x01\0\x44\xac\0\0\x88\x58\x01\0\x02\0\x10\0data"
        );
        assert_eq!(output[40..44], *data);
        assert!(output[44..44 + length] == samples);
        assert_eq!(output[44 + length..], *b"\x77\x77");
    }
}

#[test]
fn rates() {
    for rate in [8_000, 8_001, 11_025, 191_999, 192_000] {
        assert_eq!(said(rate, 2, 46), done(46));
    }
    for rate in [0, 1, 7_999, 192_001, 0x0100_0000, 0x8000_0000, 0x8000_bb80] {
        assert_eq!(said(rate, 2, 46), refused(5));
    }
    assert_eq!(said(u32::MAX, 2, 46), refused(5));
}

#[test]
fn odd_data() {
    for length in [1, 3, 255, 65_537, 1_048_575] {
        assert_eq!(said(48_000, length, length + 45), refused(14));
    }
}

#[test]
fn over_the_limit() {
    assert_eq!(said(48_000, 1_048_574, 1_048_618), done(1_048_618));
    assert_eq!(said(48_000, 1_048_576, 1_048_620), done(1_048_620));
    for length in [1_048_578, 1_048_580, 2_097_152] {
        assert_eq!(said(48_000, length, length + 44), refused(17));
    }
}

#[test]
fn room() {
    for (length, room) in [
        (0, 0),
        (0, 1),
        (0, 43),
        (2, 0),
        (2, 2),
        (2, 44),
        (2, 45),
        (300, 300),
        (300, 343),
        (1_048_576, 0),
        (1_048_576, 1_048_619),
    ] {
        assert_eq!(said(48_000, length, room), refused(15));
    }
    assert_eq!(said(48_000, 0, 44), done(44));
    assert_eq!(said(48_000, 0, 45), done(44));
    assert_eq!(said(48_000, 2, 46), done(46));
    assert_eq!(said(48_000, 2, 1_000), done(46));
    assert_eq!(said(48_000, 300, 344), done(344));
}

/// Of two refusals: 5 before each other, 14 before 17 and 15, 17 before 15.
#[test]
fn two_refusals() {
    assert_eq!(said(7_999, 1, 45), refused(5));
    assert_eq!(said(192_001, 1_048_578, 1_048_622), refused(5));
    assert_eq!(said(0, 2, 45), refused(5));
    assert_eq!(said(48_000, 1_048_577, 1_048_621), refused(14));
    assert_eq!(said(48_000, 1_048_579, 1_048_623), refused(14));
    assert_eq!(said(48_000, 1, 44), refused(14));
    assert_eq!(said(48_000, 1_048_578, 1_048_621), refused(17));
    assert_eq!(said(48_000, 1_048_578, 0), refused(17));
}

#[test]
fn three_and_four_refusals() {
    assert_eq!(said(7_999, 1_048_577, 1_048_621), refused(5));
    assert_eq!(said(192_001, 3, 46), refused(5));
    assert_eq!(said(0, 1_048_578, 44), refused(5));
    assert_eq!(said(48_000, 1_048_577, 1_048_620), refused(14));
    assert_eq!(said(48_000, 1_048_579, 0), refused(14));
    assert_eq!(said(7_999, 1_048_577, 0), refused(5));
    assert_eq!(said(u32::MAX, 1_048_579, 1_048_622), refused(5));
}
