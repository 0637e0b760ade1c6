//! Rows by hand: a click in silence, where the gate aims open by document 01's words, and JSONs that say it and that don't.
//!
//! At 8,000 Hz the follower's numbers are exp(-1.25) = 0.2865 and exp(-1/80). A click of 1/2 at sample 100 brings the level to
//! 0.7135 / 2 = 0.3567, and from there it falls to 0.01, -40 dB, in 80 * ln(35.67) = 285.9 samples: 100 to 385 are loud. A hold
//! of 100 ms is 800 samples: of those behind 385 the next 799 are aimed open. Quiet are the 100 before the click and the
//! 15,614 from 386 on.
use super::{judged, spans};
use crate::wave_write::rules::head;
use rustortion_core::amp::stages::eq::EqStage;

const CLICK: (usize, usize) = (100, 1_185);

fn file(rate: u32, samples: &[i16]) -> Vec<u8> {
    let mut file = head(rate, 2 * samples.len() as u32);
    file.extend(samples.iter().flat_map(|n| n.to_le_bytes()));
    file
}

/// Two seconds with a click in them.
fn click() -> Vec<u8> {
    let mut samples = [0; 16_000];
    samples[100] = 16_384;
    file(8_000, &samples)
}

const SETTINGS: &str = r#""settings":{"threshold_db":-40,"factor":0.00999999978,"ratio":10,"attack_ms":1,"opening":0.882496893,"release_ms":100,"closing":0.998750806,"hold_ms":100,"hold_samples":800,"hold_word":"exact","rising":0.286504805,"falling":0.987577796}"#;
const SPANS: &str =
    r#""eq":[],"spans":[{"from":100,"to":1185,"from_ms":12.500,"to_ms":148.125}],"open":1085"#;
const QUIET: &str = r#""quiet":{"longest":{"from":386,"to":16000,"from_ms":48.250,"to_ms":2000.000},"at_end":15614,"at_end_ms":1951.750}"#;

fn json() -> String {
    format!(
        r#"{{"file":"click.wav","rate":8000,"samples":16000,"ms":2000.000,{SETTINGS},{SPANS},{QUIET}}}"#
    )
}

/// What is said of the JSON with a part of it changed.
fn with(part: &str, other: &str) -> Result<String, String> {
    let json = json();
    assert_eq!(json.matches(part).count(), 1, "{part}");
    judged(&click(), &json.replace(part, other), None)
}

#[test]
fn a_click() {
    let line = "16000 samples, 1 spans: as the Rust aims";
    assert_eq!(judged(&click(), &json(), None), Ok(line.into()));
    assert_eq!(judged(&click(), &(json() + "\n"), None), Ok(line.into()));
    let lines = format!("{} {}\n1085 of 16000\n", CLICK.0, CLICK.1);
    assert_eq!(spans(&click(), [-40.0, 10.0, 1.0, 100.0, 100.0]), Ok(lines));
}

#[test]
fn wrong_ones() {
    let wrong = [
        (r#""from":100"#, r#""from":101"#, "span 0"),
        (r#""from":100"#, r#""from":99"#, "span 0"),
        (r#""to":1185"#, r#""to":1186"#, "span 0"),
        (r#""to":1185"#, r#""to":1184"#, "span 0"),
        (r#""open":1085"#, r#""open":1084"#, "open"),
        (r#""open":1085"#, r#""open":1086"#, "open"),
        (
            r#"148.125}]"#,
            r#"148.125},{"from":2000,"to":2001,"from_ms":250,"to_ms":250.125}]"#,
            "spans",
        ),
        (
            r#"[{"from":100,"to":1185,"from_ms":12.500,"to_ms":148.125}]"#,
            "[]",
            "spans",
        ),
        (
            r#""hold_samples":800"#,
            r#""hold_samples":799"#,
            "hold_samples",
        ),
        (r#""hold_ms":100"#, r#""hold_ms":50"#, "hold_samples"),
        (r#""exact""#, r#""cut""#, "hold_word"),
        (r#""exact""#, r#""whole""#, "hold_word"),
        (r#""exact""#, r#""""#, "hold_word"),
        (
            r#""hold_ms":100,"hold_samples":800"#,
            r#""hold_ms":50,"hold_samples":400"#,
            "span 0",
        ),
        (
            r#""hold_ms":100,"hold_samples":800"#,
            r#""hold_ms":501,"hold_samples":4008"#,
            "9 refuses",
        ),
        (r#""rate":8000"#, r#""rate":8001"#, "rate"),
        (r#""samples":16000"#, r#""samples":15999"#, "samples"),
        (r#""ms":2000.000"#, r#""ms":2000.001"#, "ms"),
        (r#""from_ms":12.500"#, r#""from_ms":12.501"#, "span's time"),
        (r#""to_ms":148.125"#, r#""to_ms":148.124"#, "span's time"),
        (r#""from":386"#, r#""from":385"#, "longest quiet"),
        (r#""from":386"#, r#""from":387"#, "longest quiet"),
        (r#""to":16000"#, r#""to":15999"#, "longest quiet"),
        (
            r#"{"from":386,"to":16000,"from_ms":48.250,"to_ms":2000.000}"#,
            r#"{"from":0,"to":100,"from_ms":0.000,"to_ms":12.500}"#,
            "longest quiet",
        ),
        (
            r#"{"from":386,"to":16000,"from_ms":48.250,"to_ms":2000.000}"#,
            "null",
            "longest quiet",
        ),
        (r#""at_end":15614"#, r#""at_end":15613"#, "at the end"),
        (r#""at_end":15614"#, r#""at_end":15615"#, "at the end"),
        // The samples since the aim closed.
        (r#""at_end":15614"#, r#""at_end":14815"#, "at the end"),
        (r#""from_ms":48.250"#, r#""from_ms":48.251"#, "quiet time"),
        (r#""to_ms":2000.000"#, r#""to_ms":1999.999"#, "quiet time"),
        (
            r#""at_end_ms":1951.750"#,
            r#""at_end_ms":1951.749"#,
            "quiet time",
        ),
        (r#""ratio":10"#, r#""ratio":100.5"#, "9 refuses"),
        (r#""threshold_db":-40"#, r#""threshold_db":-41"#, "factor"),
    ];
    for (part, other, word) in wrong {
        let said = with(part, other).expect_err(other);
        assert!(said.contains(word), "{other}: {said}");
    }
}

/// What is said of the click with another hold, whose samples but the first follow the last loud one, 385.
fn with_hold(ms: &str, samples: u32, word: &str) -> Result<String, String> {
    let to = 386 + samples.saturating_sub(1);
    let changed = [
        (r#""hold_ms":100"#, format!(r#""hold_ms":{ms}"#)),
        (r#"samples":800,"#, format!(r#"samples":{samples},"#)),
        (r#""exact""#, format!(r#""{word}""#)),
        (r#""to":1185"#, format!(r#""to":{to}"#)),
        ("148.125", format!("{:.3}", f64::from(to) / 8.0)),
        (r#""open":1085"#, format!(r#""open":{}"#, to - 100)),
    ];
    let json = changed.iter().fold(json(), |json, (part, other)| {
        assert_eq!(json.matches(part).count(), 1, "{part}");
        json.replace(part, other)
    });
    judged(&click(), &json, None)
}

/// In float 5/8 ms are 5.0000005 samples at 8,000 Hz, 5 ms are 40.000004, 10 ms 80.00001 and 1/10 ms is 0.8; the others
/// are whole.
#[test]
fn holds_and_their_words() {
    for (ms, samples, word, other) in [
        ("0.1", 0, "cut", "exact"),
        ("0.125", 1, "exact", "cut"),
        ("0.375", 3, "exact", "cut"),
        ("0.625", 5, "cut", "exact"),
        ("5", 40, "cut", "exact"),
        ("10", 80, "cut", "exact"),
        ("50", 400, "exact", "cut"),
    ] {
        assert!(with_hold(ms, samples, word).is_ok(), "{ms} ms");
        let said = with_hold(ms, samples, other).unwrap_err();
        assert!(said.contains("hold_word"), "{ms} ms: {said}");
        let said = with_hold(ms, samples + 1, word).unwrap_err();
        assert!(said.contains("hold_samples"), "{ms} ms: {said}");
    }
}

/// What is said of a recording at 8,000 Hz with this one span, or none, and these quiet figures.
fn said_of(
    samples: &[i16],
    span: Option<(u64, u64)>,
    longest: Option<(u64, u64)>,
    at_end: u64,
) -> Result<String, String> {
    let ms = |sample: u64| format!("{:.3}", sample as f64 / 8.0);
    let told = |(from, to): (u64, u64)| {
        let [from_ms, to_ms] = [from, to].map(ms);
        format!(r#"{{"from":{from},"to":{to},"from_ms":{from_ms},"to_ms":{to_ms}}}"#)
    };
    let count = samples.len() as u64;
    let spans = span.map_or(String::new(), told);
    let open = span.map_or(0, |(from, to)| to - from);
    let longest = longest.map_or("null".into(), told);
    let json = format!(
        r#"{{"file":"a.wav","rate":8000,"samples":{count},"ms":{},{SETTINGS},"eq":[],"spans":[{spans}],"open":{open},"quiet":{{"longest":{longest},"at_end":{at_end},"at_end_ms":{}}}}}"#,
        ms(count),
        ms(at_end)
    );
    judged(&file(8_000, samples), &json, None)
}

/// Silence with clicks in it. A second one comes upon what is left of the first's level, 100 samples after it fell to 0.01:
/// 0.01 * exp(-100 / 80) * 0.2865 = 0.0008 more, and it is loud for 80 * ln(35.75) = 286.1 samples, the last of them 286 behind
/// it.
fn clicks(at: &[usize], length: usize) -> Vec<i16> {
    let mut samples = vec![0; length];
    at.iter().for_each(|&at| samples[at] = 16_384);
    samples
}

#[test]
fn quiet_stretches() {
    // Of two as long the first; one sample more, and it is the second; then the one at the end.
    let equal = clicks(&[100, 486], 823);
    assert!(said_of(&equal, Some((100, 823)), Some((0, 100)), 50).is_ok());
    assert!(said_of(&equal, Some((100, 823)), Some((386, 486)), 50).is_err());
    let second = clicks(&[100, 487], 824);
    assert!(said_of(&second, Some((100, 824)), Some((386, 487)), 50).is_ok());
    assert!(said_of(&second, Some((100, 824)), Some((0, 100)), 50).is_err());
    let last = clicks(&[100, 486], 874);
    assert!(said_of(&last, Some((100, 874)), Some((773, 874)), 101).is_ok());
    // The last sample is loud; then the one behind it is not.
    let loud = clicks(&[0], 286);
    assert!(said_of(&loud, Some((0, 286)), None, 0).is_ok());
    assert!(said_of(&loud, Some((0, 286)), Some((0, 0)), 0).is_err());
    assert!(said_of(&loud, Some((0, 286)), None, 1).is_err());
    let quiet = clicks(&[0], 287);
    assert!(said_of(&quiet, Some((0, 287)), Some((286, 287)), 1).is_ok());
    assert!(said_of(&quiet, Some((0, 287)), None, 0).is_err());
    // None is loud; and there is none.
    assert!(said_of(&[0; 9_000], None, Some((0, 9_000)), 9_000).is_ok());
    assert!(said_of(&[], None, None, 0).is_ok());
    assert!(said_of(&[], None, Some((0, 0)), 0).is_err());
}

/// Two units in the last place are no matter. The Rust's own formula is some units off the header's, and twelve are too many.
#[test]
fn worked_numbers() {
    for (name, text) in [
        ("opening", "0.882496893"),
        ("closing", "0.998750806"),
        ("rising", "0.286504805"),
        ("falling", "0.987577796"),
    ] {
        let bits = text.parse::<f32>().unwrap().to_bits();
        let moved = |by: i32| format!("{}", f32::from_bits(bits.wrapping_add_signed(by)));
        for by in [-2, 2] {
            // What is aimed open is another matter, with another follower.
            let said = with(text, &moved(by));
            assert!(!said.is_err_and(|said| said.contains(name)), "{name} {by}");
        }
        for by in [-12, 12] {
            let said = with(text, &moved(by)).unwrap_err();
            assert!(said.contains(name), "{name} {by}: {said}");
        }
    }
}

#[test]
fn no_json() {
    for (part, other) in [
        (r#""file":"click.wav","#, ""),
        (r#""file":"click.wav""#, r#""file":7"#),
        (
            r#""rate":8000,"samples":16000"#,
            r#""samples":16000,"rate":8000"#,
        ),
        (r#""eq":[],"#, ""),
        (r#""hold_word":"exact","#, ""),
        (r#""hold_word":"exact""#, r#""hold_word":1"#),
        (r#""hold_word":"exact""#, r#""hold_word":null"#),
        (
            r#""hold_samples":800,"hold_word":"exact""#,
            r#""hold_word":"exact","hold_samples":800"#,
        ),
        (r#""quiet":"#, r#""still":"#),
        (
            r#""longest":{"from":386,"to":16000,"from_ms":48.250,"to_ms":2000.000},"#,
            "",
        ),
        (QUIET, r#""quiet":null"#),
        (QUIET, r#""quiet":[]"#),
        (r#""at_end":15614,"#, ""),
        (r#""at_end":15614,"#, r#""at_end":null,"#),
        (r#","at_end_ms":1951.750"#, ""),
        (
            r#""at_end_ms":1951.750"#,
            r#""at_end_ms":1951.750,"more":1"#,
        ),
        (r#""from_ms":48.250,"#, ""),
        (r#""from":386,"to":16000"#, r#""to":16000,"from":386"#),
        (r#""open":1085"#, r#""open":1085,"more":1"#),
        (r#""open":1085"#, r#""open":"1085""#),
        (r#""open":1085"#, r#""open":nan"#),
        (r#""open":1085"#, r#""open":-1"#),
        (r#""rising":0.286504805"#, r#""rising":inf"#),
        (r#""ratio":10,"#, "\"ratio\":10,\n"),
    ] {
        assert!(with(part, other).is_err(), "{other}");
    }
}

#[test]
fn refused_recordings() {
    let cut = &click()[..3_000];
    assert_eq!(
        judged(cut, &json(), None),
        Err("the recording is refused by 11".into())
    );
    assert!(spans(&file(7_999, &[0]), [-40.0, 10.0, 1.0, 100.0, 100.0]).is_err());
    assert!(spans(&click(), [-81.0, 10.0, 1.0, 100.0, 100.0]).is_err());
}

/// The click alone comes out of two seconds of silence.
fn gated(n: i16) -> Vec<u8> {
    let mut samples = [0; 16_000];
    samples[100] = n;
    file(8_000, &samples)
}

/// At the click the state is 1 - 0.8825, the gain 0.9 * 0.1175 + 0.1 = 0.20575, and 0.20575 / 2 * 32768 = 3371.01.
#[test]
fn a_written_file() {
    let right = gated(3_371);
    let said = |gated: &[u8]| judged(&click(), &json(), Some(gated));
    assert!(said(&right).is_ok());
    assert_eq!(
        super::gated(&click(), [-40.0, 10.0, 1.0, 100.0, 100.0]),
        Ok(right.clone())
    );
    let sample = said(&gated(3_370)).unwrap_err();
    assert!(
        sample.contains("byte 244") && sample.contains("Some(100)"),
        "{sample}"
    );
    assert!(said(&right[..right.len() - 1]).is_err());
    assert!(said(&[&right[..], &[0]].concat()).is_err());
    for at in 0..44 {
        let mut other = right.clone();
        other[at] ^= 1;
        assert!(said(&other).is_err(), "byte {at}");
    }
}

/// With ratio 1 every sample leaves the gate as it is: 1/2 is written as 16384.
#[test]
fn a_gate_that_passes_all() {
    let json = json().replace(r#""ratio":10"#, r#""ratio":1"#);
    assert!(judged(&click(), &json, Some(&gated(16_384))).is_ok());
    assert!(judged(&click(), &json, Some(&gated(16_383))).is_err());
}

fn with_band(numbers: [f64; 5]) -> String {
    let [b0, b1, b2, a1, a2] = numbers.map(|x| format!("{x:e}"));
    let band = format!(r#"{{"band":15,"db":6,"b0":{b0},"b1":{b1},"b2":{b2},"a1":{a1},"a2":{a2}}}"#);
    json().replace("\"eq\":[]", &format!("\"eq\":[{band}]"))
}

/// The highest band lies above half the rate: it takes 10^(6/20) = 1.99526 of each sample, and 3371.01 becomes 6726.04.
#[test]
fn an_equaliser_behind_it() {
    let mut decibels = [0.0; 16];
    decibels[15] = 6.0;
    let rust = EqStage::new(decibels, 8_000.0).band(15);
    let numbers = [rust.b0, rust.b1, rust.b2, rust.a1, rust.a2];
    let json = with_band(numbers);
    assert!(judged(&click(), &json, None).is_ok());
    assert!(judged(&click(), &json, Some(&gated(6_726))).is_ok());
    assert!(judged(&click(), &json, Some(&gated(3_371))).is_err());
    for at in 0..5 {
        let mut other = numbers;
        other[at] += 1e-14;
        assert!(judged(&click(), &with_band(other), None).is_err());
    }
    let other = json.replace(r#""band":15"#, r#""band":16"#);
    assert!(judged(&click(), &other, None).is_err());
}

const RUN: &str = r#"{"threshold_db":-40,"factor":0.00999999978,"hold_ms":100,"hold_samples":800,"hold_word":"exact","open":1085,"spans":1,"first":100,"end":1185,"quiet":{"longest":{"from":386,"to":16000,"from_ms":48.250,"to_ms":2000.000},"at_end":15614,"at_end_ms":1951.750}}"#;
const SILENT: &str = r#"{"threshold_db":0,"factor":1,"hold_ms":0,"hold_samples":0,"hold_word":"exact","open":0,"spans":0,"first":null,"end":null,"quiet":{"longest":{"from":0,"to":16000,"from_ms":0.000,"to_ms":2000.000},"at_end":16000,"at_end_ms":2000.000}}"#;

/// The JSON with these two runs.
fn with_runs(first: &str, second: &str) -> String {
    let heard = format!("{SPANS},{QUIET}");
    json().replace(&heard, &format!(r#""eq":[],"runs":[{first},{second}]"#))
}

#[test]
fn several_runs() {
    let with = |first: &str| judged(&click(), &with_runs(first, SILENT), None);
    assert_eq!(
        with(RUN),
        Ok("16000 samples, 2 runs: as the Rust aims".into())
    );
    for (part, other) in [
        (r#""open":1085"#, r#""open":1084"#),
        (r#""spans":1"#, r#""spans":2"#),
        (r#""first":100"#, r#""first":101"#),
        (r#""end":1185"#, r#""end":1184"#),
        (r#""first":100,"end":1185"#, r#""first":null,"end":null"#),
        (r#""threshold_db":-40"#, r#""threshold_db":-20"#),
        (r#""hold_samples":800"#, r#""hold_samples":801"#),
        (r#""hold_word":"exact""#, r#""hold_word":"cut""#),
        (r#""hold_word":"exact","#, ""),
        (r#""hold_word":"exact""#, r#""hold_word":true"#),
        (
            r#""hold_ms":100,"hold_samples":800"#,
            r#""hold_ms":50,"hold_samples":400"#,
        ),
        (r#""from":386"#, r#""from":385"#),
        (r#""to":16000"#, r#""to":15999"#),
        (r#""from_ms":48.250"#, r#""from_ms":48.251"#),
        (r#""to_ms":2000.000"#, r#""to_ms":2000.001"#),
        (r#""at_end":15614"#, r#""at_end":15613"#),
        (r#""at_end":15614"#, r#""at_end":16000"#),
        (r#""at_end_ms":1951.750"#, r#""at_end_ms":1951.751"#),
        (
            r#"{"from":386,"to":16000,"from_ms":48.250,"to_ms":2000.000}"#,
            "null",
        ),
    ] {
        assert_eq!(RUN.matches(part).count(), 1, "{part}");
        assert!(with(&RUN.replace(part, other)).is_err(), "{other}");
    }
}

/// Of a run whose hold is cut, and of the settings beside the runs.
#[test]
fn words_of_several_runs() {
    let of = |run: &str, settings: &str| {
        let json = with_runs(run, SILENT).replace(SETTINGS, settings);
        judged(&click(), &json, None)
    };
    let cut = RUN
        .replace(r#""hold_ms":100"#, r#""hold_ms":10"#)
        .replace(":800", ":80")
        .replace("exact", "cut")
        .replace(":1085", ":365")
        .replace(":1185", ":465");
    assert!(of(&cut, SETTINGS).is_ok());
    assert!(of(&cut.replace("cut", "exact"), SETTINGS).is_err());
    for (part, other) in [("exact", "cut"), (":800", ":801")] {
        assert_eq!(SETTINGS.matches(part).count(), 1, "{part}");
        assert!(of(RUN, &SETTINGS.replace(part, other)).is_err(), "{other}");
    }
}
