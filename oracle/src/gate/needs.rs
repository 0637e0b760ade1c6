//! What the stored list must have of blocks with a record, counted; a record by hand; and how long gates hold in it.
use super::{NoiseGate, call, cases, rules::Gate};
use crate::{
    calls::{Call, List, Rules, number::Taker},
    limits::{LONGEST_BLOCK, is_refused},
    random::Random,
    replay::Replay,
};
use std::collections::BTreeMap;

/// The bytes of an answer without a block's output and aims, and where in them the state begins.
const ANSWER: usize = 104;
pub(super) const STATE: usize = 40;

/// The refusals that hold of a record, whatever their order, with 7 told apart by the buffer.
fn refusals(gate: &Gate, input: &[f32], places: usize, aims: usize) -> Vec<&'static str> {
    let mut all = vec![
        ("9", !gate.is_acceptable()),
        ("7 by the output", input.len() != places),
        ("7 by the aims", input.len() != aims),
        ("8", input.len() > LONGEST_BLOCK),
        ("6", input.iter().any(|&sample| is_refused(sample))),
    ];
    all.retain(|&(_, holds)| holds);
    all.into_iter().map(|(name, _)| name).collect()
}

/// The state after a call that is done.
fn after(gate: Gate, call: &Call) -> Option<Gate> {
    match call {
        Call::Make(_, rate, worked) => Gate::make(0, *rate, Taker(worked)).ok(),
        Call::Set(which, value, worked) => {
            gate.set(&Gate::name(*which), *value, Taker(worked)).ok()
        }
        Call::SetNamed(name, value, worked) => gate.set(name, *value, Taker(worked)).ok(),
        Call::Reset => Some(gate.at_rest()),
        Call::Block(input, places) if refusals(&gate, input, *places, *places).is_empty() => {
            Some(run(gate, input).1)
        }
        Call::Record(input, places, aims) if refusals(&gate, input, *places, *aims).is_empty() => {
            Some(run(gate, input).1)
        }
        _ => None,
    }
}

/// Of each sample whether it is loud and whether the gate aims open, and the gate behind them.
fn run(mut gate: Gate, input: &[f32]) -> (Vec<(bool, bool)>, Gate) {
    let mut seen = Vec::new();
    for &sample in input {
        gate.sample(sample);
        seen.push((gate.level > gate.factor, gate.seen().open));
    }
    (seen, gate)
}

/// Each record of the stored list with the gate that it is made on.
fn records() -> Vec<(Gate, Vec<f32>, usize, usize)> {
    let mut gate = Gate::default();
    let mut records = Vec::new();
    for (call, _) in call::list(&cases::stored()) {
        if let Call::Record(input, places, aims) = &call {
            records.push((gate, input.clone(), *places, *aims));
        }
        gate = match &call {
            Call::Load(numbers) => Gate::of(Taker(numbers)),
            Call::LoadBefore(numbers) => Gate::of_before(Taker(numbers)),
            Call::Make(..) => after(gate, &call).unwrap_or_default(),
            _ if gate.is_acceptable() => after(gate, &call).unwrap_or(gate),
            _ => gate,
        };
    }
    records
}

/// Said where it is run with --nocapture. Each refusal alone, and each two that can meet.
#[test]
fn every_refusal_of_a_record_is_there() {
    const EACH: [&str; 5] = ["9", "7 by the output", "7 by the aims", "8", "6"];
    let mut counts = BTreeMap::<Vec<&str>, usize>::new();
    for (gate, input, places, aims) in records() {
        *counts
            .entry(refusals(&gate, &input, places, aims))
            .or_default() += 1;
    }
    println!("{counts:#?}");
    let has = |wanted: &[&str]| {
        let sets = counts.keys();
        sets.filter(|set| wanted.iter().all(|one| set.contains(one)))
            .count()
    };
    for (at, one) in EACH.iter().enumerate() {
        assert!(counts.contains_key(&vec![*one]), "{one} alone");
        for other in &EACH[at + 1..] {
            assert!(has(&[one, other]) > 0, "{one} with {other}");
        }
    }
}

/// What wrong aims would show at: said with --nocapture.
#[test]
fn aims_of_each_kind_are_there() {
    let mut counts = BTreeMap::<&str, usize>::new();
    for (gate, input, places, aims) in records() {
        if !refusals(&gate, &input, places, aims).is_empty() {
            continue;
        }
        let (seen, _) = run(gate, &input);
        let open = |at: usize| seen[at].1;
        let turns = |way: bool| (1..seen.len()).any(|at| open(at) == way && open(at - 1) != way);
        let length = seen.len();
        let all = |way: bool| length > 0 && (0..length).all(|at| open(at) == way);
        for (name, holds) in [
            ("done", true),
            ("empty", length == 0),
            ("opens", turns(true)),
            ("closes", turns(false)),
            ("all open", all(true)),
            ("all closed", all(false)),
            (
                "open and not loud",
                seen.iter().any(|&(loud, open)| open && !loud),
            ),
            ("turns at the second", length > 1 && open(0) != open(1)),
            (
                "turns at the last",
                length > 1 && open(length - 1) != open(length - 2),
            ),
            ("one sample", length == 1),
            ("the longest", length == LONGEST_BLOCK),
        ] {
            *counts.entry(name).or_default() += usize::from(holds);
        }
        *counts.entry("samples").or_default() += length;
        *counts.entry("samples open").or_default() +=
            seen.iter().filter(|&&(_, open)| open).count();
    }
    println!("{counts:?}");
    for (name, least) in [
        ("done", 300),
        ("empty", 5),
        ("opens", 100),
        ("closes", 100),
        ("all open", 50),
        ("all closed", 40),
        ("open and not loud", 100),
        ("turns at the second", 20),
        ("turns at the last", 20),
        ("one sample", 10),
        ("the longest", 1),
        ("samples", 40_000),
    ] {
        assert!(counts[name] >= least, "{name}: {}", counts[name]);
    }
}

/// A level that is the sample's size, a factor of 1, a hold of two samples: the aims as bytes behind the outputs. Then a
/// byte too few for them, which changes nothing.
#[test]
fn a_record_by_hand() {
    let list = [
        call::make(8_000.0, 0.0, 0.0),
        call::named(b"hold", 0.25, 0.0),
        Call::Record(vec![0.0, 2.0, 0.0, -0.0, 1.0, -2.0], 6, 6),
        Call::Record(vec![0.0; 2], 2, 1),
        Call::Record(vec![0.0; 3], 3, 3),
    ];
    let calls: Vec<u8> = list
        .iter()
        .flat_map(|call| call::bytes(call, false))
        .collect();
    assert_eq!(
        calls[128..144],
        *b"\x0b\0\0\0\x06\0\0\0\x06\0\0\0\x06\0\0\0"
    );
    let answers = NoiseGate::NEW.answers(&calls).unwrap();
    let recorded = &answers[2 * ANSWER..];
    assert_eq!(
        recorded[..24],
        *b"\0\0\0\0\0\0\0\0\0\0\0\0\0\0\0\0\x03\0\0\0\0\0\0\0"
    );
    assert_eq!(recorded[24..STATE], [0; 16]);
    assert_eq!(recorded[ANSWER + 24..][..6], [0, 1, 1, 0, 0, 1]);
    let refused = &recorded[ANSWER + 30..];
    assert_eq!(
        refused[..24],
        *b"\x07\0\0\0\0\0\0\0\0\0\0\0\0\0\0\0\0\0\0\0\0\0\0\0"
    );
    assert_eq!(refused[24..STATE], [0; 16]);
    assert_eq!(refused[STATE..ANSWER], recorded[STATE..ANSWER]);
    let behind = &refused[ANSWER..];
    assert_eq!(behind[..9], *b"\0\0\x7a\xc4\0\0\x7a\xc4\xa5");
    assert_eq!(behind[9 + ANSWER + 12..], [1, 0, 0]);
}

/// Each call of a list with its form and its answer.
pub(super) fn answered(list: &[u8]) -> Vec<(Call, &'static str, Vec<u8>)> {
    let answers = NoiseGate::NEW.answers(list).unwrap();
    let mut rest = &answers[..];
    let answered = call::list(list).map(|(call, form)| {
        let behind = match &call {
            Call::Block(_, places) => 4 * places,
            Call::Record(_, places, aims) => 4 * places + aims,
            _ => 0,
        };
        let (answer, others) = rest.split_at(ANSWER + behind);
        rest = others;
        (call, form, answer.to_vec())
    });
    answered.collect()
}

/// Each call of `holds` with its answer.
fn held() -> Vec<(Call, &'static str, Vec<u8>)> {
    let mut random = Random::new(1);
    let mut list = List::<Gate>::new(&mut random);
    list.holds();
    answered(&list.bytes)
}

/// By hand: 100 ms and 50 ms in samples, of gates made and kept, each by records and by blocks; what is left of a kept
/// counter of 300; and of each other rate the loud sample alone, whose answer tells the counter.
#[test]
fn a_made_gate_holds_100_ms_and_a_kept_one_50() {
    let (mut open, mut stretches, mut counters) = (0, Vec::new(), Vec::new());
    for (call, _, answer) in held() {
        let [count, counter] = [16, STATE + 52].map(|at| Taker(&answer[at..]).long());
        if count == 0 && open > 0 {
            stretches.push(open);
            open = 0;
        }
        open += count;
        if matches!(&call, Call::Block(samples, _) if samples[..] == [0.5]) {
            counters.push(counter);
        }
    }
    assert_eq!(
        stretches,
        [
            4_800, 4_800, 800, 800, 1, 1, 1, 1, 1, 299, 2_400, 2_400, 299, 400, 400
        ]
    );
    assert_eq!(counters, [1_102, 2_205, 4_410, 9_600, 19_200]);
}

/// What is read of the hold, and the hold of the state that is told, of gates made and kept.
#[test]
fn a_made_hold_is_read() {
    let read: Vec<_> = held()
        .into_iter()
        .filter(|(call, ..)| matches!(call, Call::Read(name) if name == b"hold"))
        .map(|(.., answer)| [4, STATE + 32].map(|at| Taker(&answer[at..]).single()))
        .collect();
    assert_eq!(read, [[100.0; 2], [100.0; 2], [50.0; 2], [50.0; 2]]);
}
