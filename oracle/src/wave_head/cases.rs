//! The stored list, by families: numbers at their limits, refusals together, what lies in the output before, and calls drawn
//! at random.
use super::{
    call::{Call, LONGEST},
    drawn,
    made::Made,
    numbers::{self, at},
    rules::MOST,
};
use crate::{
    random::Random,
    wave::rules::{ODD, RATE},
    wave_write::{
        before,
        made::ORDER,
        rules::{OVER, ROOM},
        writing::Writes,
    },
};

/// How many calls of the stored list are drawn at random.
const DRAWN: usize = 300;

/// Every family, and a call that ends too soon.
pub fn stored() -> Vec<u8> {
    let calls = families().into_iter().flat_map(|(_, calls)| calls);
    let mut list: Vec<u8> = calls.flat_map(|call| call.bytes()).collect();
    let last = at(48_000, 2, 44).bytes();
    list.extend(&last[..last.len() - 1]);
    list
}

fn families() -> Vec<(&'static str, Vec<Call>)> {
    let mut random = Random::new(23);
    vec![
        ("rates", numbers::rates()),
        ("sizes", numbers::sizes()),
        ("at the limit", numbers::at_the_limit()),
        ("rooms", numbers::rooms()),
        ("up to four refusals", together()),
        ("what lies there before", over_tiles()),
        ("the longest output", vec![at(96_000, 2, LONGEST)]),
        (
            "drawn",
            (0..DRAWN).map(|_| drawn::call(&mut random)).collect(),
        ),
    ]
}

/// Sizes that are even and not over the limit, odd, over it, and both.
const fn sizes(odd: bool, over: bool) -> [u64; 4] {
    match (odd, over) {
        (false, false) => [0, 26, 1_048_578, MOST],
        (true, false) => [1, 27, 1_048_577, MOST - 1],
        (false, true) => [MOST + 2, 1 << 32, 1 << 63, u64::MAX - 1],
        (true, true) => [MOST + 1, (1 << 32) + 1, (1 << 63) + 1, u64::MAX],
    }
}

/// Every set of refusals at once, none and all four among them, with each size and each of some rooms.
fn together() -> Vec<Call> {
    let mut before = before::tiles().into_iter().cycle();
    let mut calls = Vec::new();
    for set in 0..16 {
        let numbers = ORDER.into_iter().enumerate();
        let held = numbers.filter(|(at, _)| set >> at & 1 == 1);
        let refusals: Vec<u32> = held.map(|(_, number)| number).collect();
        let has = |number| refusals.contains(&number);
        let rates = if has(RATE) {
            [0, 7_999, 192_001, 0x8000_bb80]
        } else {
            [8_000, 44_100, 48_000, 192_000]
        };
        let rooms = if has(ROOM) { [0, 42, 43] } else { [44, 45, 80] };
        for (samples, rate) in sizes(has(ODD), has(OVER)).into_iter().zip(rates) {
            for room in rooms {
                let call = Call {
                    rate,
                    samples,
                    room,
                    before: before.next().expect("it goes round"),
                };
                let refusals = refusals.clone();
                calls.push(Made { call, refusals }.judged());
            }
        }
    }
    calls
}

/// Over each tile calls that are done, and calls refused by each number.
fn over_tiles() -> Vec<Call> {
    let mut calls = Vec::new();
    for before in before::tiles() {
        let whole = before.len().max(50);
        for (rate, samples, room) in [
            (32_000, 0, 44),
            (24_000, 6, whole),
            (88_200, MOST, whole),
            (7_999, 6, whole),
            (32_000, 7, whole),
            (88_200, MOST + 2, whole),
            (176_400, 6, 43),
        ] {
            let before = before.clone();
            calls.push(Call {
                before,
                ..at(rate, samples, room)
            });
        }
    }
    calls
}

#[cfg(test)]
mod tests {
    use super::{super::rules, *};
    use crate::wave_write::writing::calls;
    use std::collections::BTreeMap;

    /// Said where it is run with --nocapture.
    #[test]
    fn the_stored_list_has_what_it_needs() {
        let mut answers = BTreeMap::<u32, usize>::new();
        let mut bytes = 0;
        for (name, calls) in families() {
            let numbers = calls.iter().map(|call| call.written().0.number);
            let done = numbers.clone().filter(|&number| number == 0).count();
            let size: usize = calls
                .iter()
                .map(|call| call.bytes().len() + call.answer_length())
                .sum();
            println!("{:>6} {done:>6} done, {size:>6} bytes, {name}", calls.len());
            bytes += size;
            for number in numbers {
                *answers.entry(number).or_default() += 1;
            }
        }
        println!("{answers:?}, {bytes} bytes");
        assert!(answers.keys().eq(&[0, 5, 14, 15, 17]));
        assert!(answers.values().all(|&count| count >= 100));
        assert_eq!(calls::<Call>(&stored()).count(), answers.values().sum());
        assert!(bytes < 600_000, "{bytes}");
    }

    /// No law sees the order of refusals, so the list must: every set of two, of three, and all four.
    #[test]
    fn every_set_of_refusals_is_there() {
        let mut counts = BTreeMap::<Vec<u32>, usize>::new();
        for call in calls::<Call>(&stored()) {
            let set = rules::refusals(call.asked()).collect();
            *counts.entry(set).or_default() += 1;
        }
        println!("{counts:?}");
        assert_eq!(counts.len(), 16);
        assert!(counts.values().all(|&count| count >= 12), "{counts:?}");
    }

    /// Sizes that are over and, in 32 bits, come to one that isn't: done there by a writer that cuts them.
    #[test]
    fn sizes_that_wrap_are_there() {
        let wraps = |call: &Call| {
            let over = rules::refusals(call.asked()).eq([OVER]);
            over && call.samples % (1 << 32) <= MOST
        };
        assert!(calls(&stored()).filter(wraps).count() >= 100);
    }
}
