//! What a set hold tells, by hand and in every list; and what the lists must have of it, counted.
use super::{
    NoiseGate, cases,
    needs::{STATE, answered},
    rules::Gate,
    setting::NAMES,
    words::BY_HAND,
};
use crate::{
    calls::{Call, List, Rules, number::Taker},
    exact::{CUT, EXACT},
    random::Random,
    replay::Replay,
};
use std::collections::{BTreeMap, BTreeSet};

/// A call, by what it says of a hold, and its answer's bytes.
struct Asked {
    form: Option<&'static str>,
    call: Call,
    answer: Vec<u8>,
}

impl Asked {
    fn number(&self) -> u32 {
        Taker(&self.answer).whole()
    }

    /// Word and samples.
    fn told(&self) -> (u32, u64) {
        let mut numbers = Taker(&self.answer[24..]);
        (numbers.whole(), numbers.long())
    }

    fn rate(&self) -> f32 {
        Taker(&self.answer[STATE..]).single()
    }

    fn hold(&self) -> f32 {
        Taker(&self.answer[STATE + 32..]).single()
    }

    fn counter(&self) -> u64 {
        Taker(&self.answer[STATE + 52..]).long()
    }
}

/// The form of a setting of the hold.
fn form(call: &Call, by: &'static str) -> Option<&'static str> {
    match call {
        Call::Set(4, ..) => Some("typed"),
        Call::SetNamed(name, ..) if name == b"hold" => Some(by),
        _ => None,
    }
}

fn asked(list: &[u8]) -> Vec<Asked> {
    let all = answered(list).into_iter();
    let asked = |(call, by, answer)| Asked {
        form: form(&call, by),
        call,
        answer,
    };
    all.map(asked).collect()
}

/// The answers to a part of the stored list.
fn part(of: fn(&mut List<Gate>)) -> Vec<Asked> {
    let mut random = Random::new(1);
    let mut list = List::<Gate>::new(&mut random);
    of(&mut list);
    asked(&list.bytes)
}

fn stored() -> Vec<Asked> {
    asked(&cases::stored())
}

fn new() -> Vec<Asked> {
    asked(&NoiseGate::NEW.generated(&mut Random::new(1), 200_000))
}

/// At 48,000 Hz, in each form; and what a loud sample then sets the counter to. In float 1/16 ms are 3.0000002 samples,
/// 1/48 ms are 1.0000001, 1/24 ms 2.0000002 and 7/48 ms 6.9999995; the smallest hold comes to 0, and the one just below
/// 500 ms to 24,000.
#[test]
fn words_by_hand() {
    let rows = [
        (CUT, 3),
        (EXACT, 2_400),
        (EXACT, 0),
        (EXACT, 0),
        (EXACT, 0),
        (CUT, 1),
        (CUT, 2),
        (CUT, 6),
        (EXACT, 4_800),
        (CUT, 2_399),
        (CUT, 2_400),
        (EXACT, 24_000),
        (EXACT, 24_000),
    ];
    let all = part(|list| list.words());
    for (asked, (hold, row)) in all[2..].chunks(4).zip(BY_HAND.into_iter().zip(rows)) {
        let [set @ .., block] = asked else {
            unreachable!("four calls")
        };
        let forms: Vec<_> = set.iter().map(|asked| asked.form.unwrap()).collect();
        assert_eq!(forms, ["typed", "by value", "in place"]);
        assert!(set.iter().all(|asked| asked.told() == row), "{hold}");
        assert_eq!(block.told(), (0, 0));
        assert_eq!(block.counter(), row.1, "{hold}");
    }
}

#[test]
fn of_the_whole_milliseconds_262_are_cut_and_none_loses_a_sample() {
    let told: Vec<_> = part(|list| list.every_millisecond())[1..]
        .iter()
        .map(Asked::told)
        .collect();
    assert_eq!(told.len(), 501);
    let cut = told.iter().filter(|&&(word, _)| word == CUT);
    assert_eq!(cut.count(), 262);
    let exact = told.iter().filter(|&&(word, _)| word == EXACT);
    assert_eq!(exact.count(), 239);
    for (ms, (_, samples)) in (0..).zip(told) {
        assert_eq!(samples, ms * 48_000 / 1_000, "{ms} ms");
    }
}

/// A done setting of the hold tells what the product of its hold and its rate is; nothing else tells anything.
#[test]
fn only_a_hold_that_is_set_tells() {
    for asked in stored().into_iter().chain(new()) {
        let product = (asked.hold() * 0.001) * asked.rate();
        let row = match (asked.form, asked.number()) {
            (Some(_), 0) if product == product.floor() => (EXACT, product as u64),
            (Some(_), 0) => (CUT, product as u64),
            _ => (0, 0),
        };
        assert_eq!(asked.told(), row, "{:?}", asked.call);
    }
}

/// Other ways to H and its word, of hold and rate.
type Wrong = (&'static str, fn(f32, f32) -> (u32, u64));

fn of_f64(samples: f64) -> (u32, u64) {
    let word = if samples.fract() == 0.0 { EXACT } else { CUT };
    (word, samples as u64)
}

fn of(samples: f32) -> (u32, u64) {
    of_f64(samples.into())
}

const WRONG: [Wrong; 10] = [
    ("products in f64", |hold, rate| {
        of_f64((f64::from(hold) * 0.001) * f64::from(rate))
    }),
    ("by the rate, then divided, in f64", |hold, rate| {
        of_f64(f64::from(hold) * f64::from(rate) / 1_000.0)
    }),
    ("the products rounded once", |hold, rate| {
        let product = f64::from(hold) * f64::from(0.001f32) * f64::from(rate);
        of(product as f32)
    }),
    ("by the rate first", |hold, rate| of((hold * rate) * 0.001)),
    ("the rate by 0.001 first", |hold, rate| {
        of(hold * (rate * 0.001))
    }),
    ("divided first", |hold, rate| of((hold / 1_000.0) * rate)),
    ("divided last", |hold, rate| of(hold * rate / 1_000.0)),
    ("to the nearest", |hold, rate| {
        let product = (hold * 0.001) * rate;
        (of(product).0, product.round() as u64)
    }),
    ("the milliseconds' word", |hold, rate| {
        (of(hold).0, ((hold * 0.001) * rate) as u64)
    }),
    ("no word where nothing is held", |hold, rate| {
        let (word, samples) = of((hold * 0.001) * rate);
        (if samples == 0 { 0 } else { word }, samples)
    }),
];

#[test]
fn each_list_tells_other_ways_apart() {
    for (list, all) in [("the stored list", stored()), ("a new list", new())] {
        for (name, wrong) in WRONG {
            let done = all.iter().filter(|asked| asked.told().0 != 0);
            let differ = done.filter(|asked| wrong(asked.hold(), asked.rate()) != asked.told());
            let count = differ.count();
            println!("{list}, {name}: {count}");
            assert!(count > 0, "{list} doesn't tell apart: {name}");
        }
    }
}

/// Said where it is run with --nocapture: each form of a hold with each word, or with the number that refuses it.
#[test]
fn words_of_each_form_are_there() {
    for (list, all, least, rates) in [("stored", stored(), 100, 40), ("new", new(), 150, 60)] {
        let mut counts = BTreeMap::<_, usize>::new();
        let mut at = [EXACT, CUT].map(|_| BTreeSet::new());
        for asked in &all {
            let (word, _) = asked.told();
            if let Some(form) = asked.form {
                *counts.entry((form, word, asked.number())).or_default() += 1;
            }
            if word != 0 {
                at[word as usize - 1].insert(asked.rate() as u32);
            }
        }
        let at = at.map(|rates| rates.len());
        println!("{list}: {counts:?}, at {at:?} rates");
        for form in ["typed", "by value", "in place"] {
            for word in [EXACT, CUT] {
                let count = counts.get(&(form, word, 0)).copied().unwrap_or(0);
                assert!(count >= least, "{list}, {form}, {word}: {count}");
            }
            assert!(counts.contains_key(&(form, 0, 3)), "{list}, {form}");
        }
        assert!(at.iter().all(|&count| count >= rates), "{list}: {at:?}");
    }
}

/// In the stored list: a hold that 9 refuses, and each other setting that is done, in each form; names that are none.
#[test]
fn what_tells_no_word_is_there() {
    let mut others = BTreeMap::<_, usize>::new();
    for (call, by, answer) in answered(&cases::stored()) {
        let number = Taker(&answer).whole();
        let (name, form) = match &call {
            Call::Set(which, ..) => (Gate::name(*which), "typed"),
            Call::SetNamed(name, ..) => (name.clone(), by),
            _ => continue,
        };
        let known = NAMES.into_iter().find(|known| known.as_bytes() == name);
        let setting = (known.unwrap_or("none"), form, number);
        *others.entry(setting).or_default() += 1;
    }
    println!("{others:?}");
    for form in ["typed", "by value", "in place"] {
        assert!(others[&("hold", form, 9)] >= 8, "{form}");
        for name in &NAMES[..4] {
            assert!(others[&(*name, form, 0)] >= 50, "{name} {form}");
        }
        if form != "typed" {
            assert!(others[&("none", form, 1)] >= 6, "{form}");
        }
    }
}
