//! Rows written out by hand from document 02's W7.
use super::{
    borders::QUICK,
    rules::{Leveller, NAMES, gain},
};
use crate::{
    calls::{
        Rules,
        number::{Taker, single_bytes},
    },
    numbers::above,
};

fn made(rate: f32, worked: [f32; 2]) -> Result<Leveller, u32> {
    Leveller::make(0, rate, Taker(&single_bytes(&worked)))
}

fn set(name: &[u8], value: f32, worked: f32) -> Result<Leveller, u32> {
    QUICK.set(name, value, Taker(&single_bytes(&[worked])))
}

fn bits(state: &Leveller) -> Vec<u8> {
    crate::calls::number::kept(&state.numbers())
}

#[test]
fn making() {
    let state = made(44_100.0, [0.5, -0.0]).unwrap();
    let numbers = [44_100.0, 0.0, 1.0, 1.0, 1.0, 0.5, 100.0, -0.0, 1.0, 0.0];
    assert_eq!(bits(&state), single_bytes(&numbers));
    let read = NAMES.map(|name| state.read(name.as_bytes()));
    assert_eq!(read, [0.0, 1.0, 1.0, 100.0, 1.0].map(Ok));
    assert_eq!(made(44_100.5, [1.0, f32::NAN]).unwrap_err(), 5);
    assert_eq!(made(44_100.0, [1.0, 0.0]).unwrap_err(), 4);
    assert_eq!(made(44_100.0, [0.0, 1.0]).unwrap_err(), 4);
    assert!(state.is_acceptable() && !Leveller::default().is_acceptable());
}

#[test]
fn setting() {
    for ratio in [1.0, 2.0, 4.0] {
        let state = set(b"ratio", ratio, f32::NAN).unwrap();
        assert_eq!(state.read(b"ratio"), Ok(ratio));
    }
    for ratio in [
        0.0,
        1.000_000_1,
        2.000_000_2,
        3.0,
        4.000_000_5,
        8.0,
        f32::NAN,
    ] {
        assert_eq!(set(b"ratio", ratio, 1.0).unwrap_err(), 3);
    }
    let threshold = set(b"threshold", -80.0, 1.0 / 16384.0).unwrap();
    assert_eq!(threshold.read(b"threshold"), Ok(-80.0));
    assert_eq!(threshold.factor, 1.0 / 16384.0);
    let makeup = set(b"makeup", -0.0, f32::NAN).unwrap();
    assert_eq!(makeup.makeup.to_bits(), 0x8000_0000);
    assert_eq!(set(b"makeup", 4.000_000_5, 1.0).unwrap_err(), 3);
    assert_eq!(set(b"threshold", -12.0, 1.000_000_1).unwrap_err(), 4);
    assert_eq!(set(b"attack", 100.0, 1.0).unwrap_err(), 4);
    assert_eq!(set(b"attack", 100.1, 1.0).unwrap_err(), 3);
    assert_eq!(set(b"release", 0.999, f32::NAN).unwrap_err(), 3);
    assert_eq!(set(b"hold", f32::NAN, f32::NAN).unwrap_err(), 1);
    assert_eq!(QUICK.read(b"hold"), Err(1));
}

#[test]
fn kept_states() {
    for level in [0.0, -0.0, 64.0] {
        assert!(Leveller { level, ..QUICK }.is_acceptable());
    }
    for level in [above(64.0), -1e-10, f32::NAN, f32::INFINITY] {
        assert!(!Leveller { level, ..QUICK }.is_acceptable());
    }
    assert!(
        !Leveller {
            ratio: 3.0,
            ..QUICK
        }
        .is_acceptable()
    );
    assert!(
        !Leveller {
            makeup: -1.0,
            ..QUICK
        }
        .is_acceptable()
    );
    let level = Leveller {
        level: 0.5,
        ..QUICK
    };
    assert_eq!(bits(&level.at_rest()), bits(&QUICK));
}

/// The root of 81 is 9 and that of 9 is 3; above 1 by one unit the root is 1, so the gain is.
#[test]
fn gains() {
    let rows = [
        (1.0, 81.0, 1.0),
        (2.0, 1.0, 1.0),
        (4.0, 1.0, 1.0),
        (2.0, 4.0, 0.5),
        (2.0, 81.0, 1.0 / 9.0),
        (4.0, 16.0, 0.125),
        (4.0, 81.0, 1.0 / 27.0),
        (4.0, 1_048_576.0, 1.0 / 32_768.0),
        (2.0, above(1.0), 1.0),
        (4.0, above(1.0), 1.0),
    ];
    for (ratio, over, answer) in rows {
        assert_eq!(gain(ratio, over), answer, "{ratio} {over}");
    }
}

/// Worked out with fractions of whole numbers. At ratio 4, 1/s/q, a root of s*s*s or of over*s, a product s*q that isn't
/// rounded and the true power all give other bits.
#[test]
fn roundings_of_gains() {
    let rows = [
        (2.0, 10.0, 0x3ea1_e89b),
        (4.0, 10.0, 0x3e36_1886),
        (2.0, 27.0, 0x3e45_11a3),
        (4.0, 27.0, 0x3dac_e7a5),
    ];
    for (ratio, over, answer) in rows {
        assert_eq!(gain(ratio, over).to_bits(), answer, "{ratio} {over}");
    }
}

/// The level is the sample's size at once; then it goes half way up, a quarter down, and what is silent counts as 1e-10.
#[test]
fn samples() {
    let mut state = Leveller {
        makeup: 2.0,
        ..QUICK
    };
    for (input, output) in [(4.0, 1.0), (-4.0, -1.0), (0.25, 0.5), (0.125, 0.25)] {
        assert_eq!(state.sample(input), output);
        assert_eq!(state.level, input.abs());
    }
    assert_eq!(state.sample(-0.0).to_bits(), 0x8000_0000);
    assert_eq!(state.level.to_bits(), 0x2edb_e6ff);
    let mut state = Leveller {
        ratio: 2.0,
        rising: 0.5,
        falling: 0.75,
        ..QUICK
    };
    assert_eq!([state.sample(2.0), state.level], [1.0, 1.0]);
    assert_eq!([state.sample(-0.0), state.level], [0.0, 0.75]);
    state.level = 4.0;
    assert_eq!([state.sample(0.0), state.level], [0.0, 3.0]);
}
