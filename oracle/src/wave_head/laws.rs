//! What is said of a head beside the writer and the reader: with its samples behind it, it is the file that the writer
//! writes, and reading finds them.
use super::{drawn, rules::write_head};
use crate::{
    random::Random,
    wave::rules::{Told, read},
    wave_write::rules::write,
};

fn samples(length: usize) -> Vec<u8> {
    (0..length).map(|at| (at * 7 + at / 256) as u8).collect()
}

#[test]
fn head_and_samples_are_the_file() {
    let mut random = Random::new(5);
    for at in 0..2_000 {
        let length = match at {
            0..100 => at,
            100 => 1_048_576,
            _ => random.below(3_000) as usize,
        };
        let rate = random.between(7_999, 192_001) as u32;
        let samples = samples(length);
        let (written, file) = write(rate, &samples, &vec![0; 44 + length]);
        let (told, head) = write_head(rate, length as u64, &[0; 44]);
        assert_eq!(told.number, written.number);
        if told.number == 0 {
            assert_eq!(told.length, 44);
            assert!([head, samples].concat() == file);
        }
    }
}

/// What the writer refuses for its length, a sample more than its limit, has a head all the same.
#[test]
fn longer_files_are_read() {
    let length = 1_048_578;
    let (told, mut file) = write_head(192_000, length, &[0; 44]);
    assert_eq!((told.number, told.length), (0, 44));
    file.extend(samples(length as usize));
    let said = Told {
        number: 0,
        rate: 192_000,
        place: 44,
        length,
    };
    assert_eq!(read(&file), said);
    file.pop();
    assert_eq!(read(&file).number, 11);
}

#[test]
fn only_the_head_is_written() {
    let mut random = Random::new(6);
    let mut refused = 0;
    for _ in 0..20_000 {
        let call = drawn::call(&mut random);
        let (written, output) = call.written();
        let before = call.given_output();
        if written.number != 0 {
            assert_eq!(written.length, 0);
            assert!(output == before);
            refused += 1;
        } else {
            assert!(output[44..] == before[44..]);
        }
    }
    assert!((5_000..9_000).contains(&refused), "{refused}");
}
