//! Rows written out by hand: what is asked, what it says, and the output behind it as bytes.
use super::rules::write_head;
use crate::wave_write::rules::Written;

const DONE: Written = Written {
    number: 0,
    length: 44,
};

const fn refused(number: u32) -> Written {
    Written { number, length: 0 }
}

/// What a call says, over so many bytes of A5; where it is refused they are all there.
fn said(rate: u32, samples: u64, room: usize) -> Written {
    let before = vec![0xa5; room];
    let (written, output) = write_head(rate, samples, &before);
    if written.number != 0 {
        assert!(output == before, "{rate} {samples} {room}");
    }
    written
}

/// 48,000 Hz, one sample: the head of the file that the writer's rows begin with; what lies behind stays.
#[test]
fn one_sample() {
    let (written, output) = write_head(48_000, 2, &[0xff; 46]);
    assert_eq!(written, DONE);
    assert_eq!(
        output,
        b"RIFF\x26\0\0\0WAVE\
            fmt \x10\0\0\0\x01\0\x01\0\x80\xbb\0\0\x00\x77\x01\0\x02\0\x10\0\
            data\x02\0\0\0\xff\xff"
    );
}

/// 192,000 Hz; an hour of it, 2^31 bytes, and the most that 32 bits tell.
#[test]
fn long_files() {
    let sizes: [(u64, &[u8; 4], &[u8; 4]); 5] = [
        (1_048_578, b"\x26\0\x10\0", b"\x02\0\x10\0"),
        (1_382_400_000, b"\x24\xc0\x65\x52", b"\0\xc0\x65\x52"),
        (2_147_483_648, b"\x24\0\0\x80", b"\0\0\0\x80"),
        (4_294_967_256, b"\xfc\xff\xff\xff", b"\xd8\xff\xff\xff"),
        (4_294_967_258, b"\xfe\xff\xff\xff", b"\xda\xff\xff\xff"),
    ];
    for (samples, riff, data) in sizes {
        let (written, output) = write_head(192_000, samples, &[0; 44]);
        assert_eq!(written, DONE);
        assert_eq!(output[..4], *b"RIFF");
        assert_eq!(output[4..8], *riff);
        assert_eq!(
            output[8..40],
            *b"WAVEfmt \x10\0\0\0\x01\0\x01\0\0\xee\x02\0\0\xdc\x05\0\x02\0\x10\0data"
        );
        assert_eq!(output[40..], *data);
    }
}

#[test]
fn one_refusal() {
    for rate in [0, 7_999, 192_001, 0x8000_bb80, u32::MAX] {
        assert_eq!(said(rate, 2, 44), refused(5));
    }
    for samples in [1, 1_048_577, 4_294_967_257] {
        assert_eq!(said(48_000, samples, 44), refused(14));
    }
    for samples in [4_294_967_260, 1 << 32, (1 << 32) + 2, 1 << 63, u64::MAX - 1] {
        assert_eq!(said(48_000, samples, 44), refused(17));
    }
    for room in [0, 1, 43] {
        assert_eq!(said(48_000, 2, room), refused(15));
    }
    assert_eq!(said(8_000, 0, 44), DONE);
    assert_eq!(said(192_000, 4_294_967_258, 45), DONE);
}

/// Of more refusals: 5 before each other, 14 before 17 and 15, 17 before 15.
#[test]
fn more_refusals() {
    assert_eq!(said(7_999, 1, 44), refused(5));
    assert_eq!(said(192_001, 1 << 32, 44), refused(5));
    assert_eq!(said(0, 2, 43), refused(5));
    assert_eq!(said(0, u64::MAX, 0), refused(5));
    assert_eq!(said(48_000, 4_294_967_259, 44), refused(14));
    assert_eq!(said(48_000, u64::MAX, 44), refused(14));
    assert_eq!(said(48_000, 1, 43), refused(14));
    assert_eq!(said(48_000, (1 << 32) + 1, 0), refused(14));
    assert_eq!(said(48_000, 4_294_967_260, 43), refused(17));
    assert_eq!(said(48_000, 1 << 63, 0), refused(17));
}
