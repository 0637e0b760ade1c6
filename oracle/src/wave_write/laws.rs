//! Laws that document 02 says of writing, tried on calls and files drawn at random: what is written is read back, what was
//! read is written again, and what stays.
use super::{
    drawn,
    rules::{Written, write},
};
use crate::{
    random::Random,
    wave::{
        drawn::{Good, good},
        file::{Chunk, File},
        recordings::RECORDINGS,
        rules::{Told, read},
    },
};

/// Reading finds rate and samples whatever lies behind the file, and what lies there is as it was.
#[test]
fn what_is_written_is_read_back() {
    let mut random = Random::new(2);
    let mut done = 0;
    for _ in 0..20_000 {
        let call = drawn::call(&mut random);
        let (written, output) = call.written();
        if written.number != 0 {
            continue;
        }
        let length = call.length as u64;
        let told = Told {
            number: 0,
            rate: call.rate,
            place: 44,
            length,
        };
        assert_eq!(read(&output), told);
        let end = written.length as usize;
        assert_eq!(end, 44 + call.length);
        assert_eq!(read(&output[..end]), told);
        assert!(output[44..end] == call.given_samples());
        assert!(output[end..] == call.given_output()[end..]);
        done += 1;
    }
    assert!((13_000..15_000).contains(&done), "{done}");
}

#[test]
fn refused_leaves_the_output() {
    let mut random = Random::new(3);
    let mut refused = 0;
    for _ in 0..20_000 {
        let call = drawn::call(&mut random);
        let (written, output) = call.written();
        if written.number != 0 {
            assert_eq!(written.length, 0);
            assert!(output == call.given_output());
            refused += 1;
        }
    }
    assert!((5_000..7_000).contains(&refused), "{refused}");
}

/// What reading a file and writing what was read comes to.
#[derive(Debug, PartialEq, Eq)]
enum Again {
    Same,
    /// As long, and other in the RIFF size alone.
    OtherRiffSize,
    Shorter,
}

/// A file that is accepted, written again over itself.
fn again(file: &[u8]) -> Again {
    let told = read(file);
    assert_eq!(told.number, 0);
    let samples = &file[told.place as usize..][..told.length as usize];
    let (written, output) = write(told.rate, samples, file);
    assert_eq!(written.number, 0);
    let whole = &output[..written.length as usize];
    if whole == file {
        return Again::Same;
    }
    if whole.len() < file.len() {
        return Again::Shorter;
    }
    assert_eq!([&whole[..4], &whole[8..]], [&file[..4], &file[8..]]);
    Again::OtherRiffSize
}

/// What the file itself says that it comes to.
fn expected(file: &[u8]) -> Again {
    let told = read(file);
    let size = u32::from_le_bytes([file[4], file[5], file[6], file[7]]);
    let ends = told.place + told.length == file.len() as u64;
    match (
        told.place == 44 && ends,
        u64::from(size) == 36 + told.length,
    ) {
        (true, true) => Again::Same,
        (true, false) => Again::OtherRiffSize,
        (false, _) => Again::Shorter,
    }
}

/// Good files of all kinds, and as many with `fmt ` and `data` alone, with other RIFF sizes and bytes behind at times.
#[test]
fn what_was_read_is_written_again() {
    let mut random = Random::new(4);
    let mut counts = [0; 3];
    for at in 0..20_000 {
        let Good { mut file, told } = good(&mut random);
        if at % 2 == 0 {
            let behind = file.behind;
            let size = file.size.map(|size| size.max(36 + told.length as u32));
            file = File::plain(told.rate, told.length as usize);
            (file.behind, file.size) = (behind, size);
        }
        let bytes = file.bytes();
        let came = again(&bytes);
        assert_eq!(came, expected(&bytes), "{bytes:02x?}");
        counts[came as usize] += 1;
    }
    assert!(counts.iter().all(|&count| count > 1_000), "{counts:?}");
}

/// Fifteen by SoX, ffmpeg, espeak-ng and Python, which wrote `fmt ` and `data` alone, come out as these programs wrote them.
#[test]
fn recordings_written_again() {
    let mut counts = [0; 3];
    for (name, file) in RECORDINGS {
        if read(file).number == 0 {
            let came = again(file);
            assert_eq!(came, expected(file), "{name}");
            counts[came as usize] += 1;
        }
    }
    assert_eq!(counts, [15, 0, 11]);
}

/// The exception of length: reading takes more than writing does.
#[test]
fn more_is_read_than_written() {
    let file = |length| File::plain(48_000, length).bytes();
    assert_eq!(again(&file(1_048_576)), Again::Same);
    let longer = file(1_048_578);
    let told = read(&longer);
    assert_eq!((told.number, told.length), (0, 1_048_578));
    let (written, output) = write(told.rate, &longer[44..], &longer);
    let refused = Written {
        number: 17,
        length: 0,
    };
    assert_eq!(written, refused);
    assert!(output == longer);
}

/// A chunk of any kind makes the file that is written shorter by all of it.
#[test]
fn other_chunks_are_left_out() {
    let note = || Chunk::new(b"note", *b"odd");
    let plain = File::plain(16_000, 6);
    for at in 0..3 {
        let mut file = plain.clone();
        file.chunks.insert(at, note());
        let bytes = file.bytes();
        let told = read(&bytes);
        let samples = &bytes[told.place as usize..][..6];
        let (written, output) = write(told.rate, samples, &[0; 50]);
        assert_eq!(written.length as usize, bytes.len() - 12);
        assert_eq!(output, plain.bytes());
    }
}
