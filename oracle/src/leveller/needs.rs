//! What the stored list tries, counted.
use super::{
    LevellerStage,
    borders::QUICK,
    cases::good,
    rules::{FLOOR, Leveller, NAMES, RATIOS},
};
use crate::{
    calls::{
        Call, Listed, Rules,
        number::{Taker, single_bytes},
    },
    limits::{LONGEST_BLOCK, is_rate, is_refused},
    numbers::{above, below},
    replay::Replay,
};
use std::collections::BTreeMap;

/// The refusals that hold of a setting, whatever their order.
fn of_setting(name: &[u8], value: f32, worked: &[u8]) -> Vec<(u32, bool)> {
    let known = NAMES.iter().position(|known| known.as_bytes() == name);
    let (as_known, good) = known.map_or((&b"attack"[..], 1.0), |which| (name, good(which)));
    let right = single_bytes(&[0.5]);
    let out_of_range = QUICK.set(as_known, value, Taker(&right)).is_err();
    let not_worked = QUICK.set(as_known, good, Taker(worked)).is_err();
    vec![(1, known.is_none()), (3, out_of_range), (4, not_worked)]
}

/// The refusals that hold of a call, whatever their order.
fn refusals(state: &Leveller, call: &Call) -> Vec<u32> {
    let kept = (9, !state.is_acceptable());
    let mut all = match call {
        Call::Make(_, rate, worked) => {
            let made = Leveller::make(0, 48_000.0, Taker(worked));
            vec![(5, !is_rate(*rate)), (4, made.is_err())]
        }
        Call::Set(which, value, worked) => of_setting(&Leveller::name(*which), *value, worked),
        Call::SetNamed(name, value, worked) => of_setting(name, *value, worked),
        Call::Read(name) => vec![(1, QUICK.read(name).is_err())],
        Call::Block(input, places) => vec![
            (7, input.len() != *places),
            (8, input.len() > LONGEST_BLOCK),
            (6, input.iter().any(|&sample| is_refused(sample))),
        ],
        _ => Vec::new(),
    };
    if !matches!(
        call,
        Call::Make(..) | Call::Load(_) | Call::Tell | Call::Unknown(_)
    ) {
        all.push(kept);
    }
    all.retain(|&(_, holds)| holds);
    all.into_iter().map(|(number, _)| number).collect()
}

/// The state after a call that no refusal holds of; of a block, each sample is shown.
fn after(state: Leveller, call: &Call, mut show: impl FnMut(f32, &Leveller)) -> Leveller {
    match call {
        Call::Make(_, rate, worked) => Leveller::make(0, *rate, Taker(worked)).unwrap(),
        Call::Set(which, value, worked) => {
            let name = Leveller::name(*which);
            state.set(&name, *value, Taker(worked)).unwrap()
        }
        Call::SetNamed(name, value, worked) => state.set(name, *value, Taker(worked)).unwrap(),
        Call::Reset => state.at_rest(),
        Call::Load(numbers) => Leveller::of(Taker(numbers)),
        Call::Block(input, _) => input.iter().fold(state, |mut state, &sample| {
            state.sample(sample);
            show(sample, &state);
            state
        }),
        _ => state,
    }
}

/// What a sample tries, on the state that it leaves.
fn tried(sample: f32, state: &Leveller) -> Vec<&'static str> {
    let over = state.level / state.factor;
    let kinds = [
        ("level at the factor", state.level == state.factor),
        ("level next above", state.level == above(state.factor)),
        ("level next below", state.level == below(state.factor)),
        ("over above 1", over > 1.0),
        ("over 2^20", over == 1_048_576.0),
        ("level 1e-10", state.level == FLOOR),
        ("sample 64", sample.abs() == 64.0),
        ("sample -0", sample == 0.0 && sample.is_sign_negative()),
        ("sample subnormal", sample.is_subnormal()),
        ("makeup 0", state.makeup.to_bits() == 0),
        ("makeup -0", state.makeup.to_bits() == 1 << 31),
        ("makeup 4", state.makeup == 4.0),
    ];
    let held = kinds.into_iter().filter(|&(_, holds)| holds);
    held.map(|(kind, _)| kind).collect()
}

/// Said where it is run with --nocapture.
#[test]
fn the_stored_list_has_what_it_needs() {
    let mut kinds = BTreeMap::<(&str, u32), u64>::new();
    let mut sets = BTreeMap::<Vec<u32>, u64>::new();
    let mut state = Leveller::default();
    let list = Leveller::stored();
    for (call, _) in Leveller::calls(&list) {
        let held = refusals(&state, &call);
        if held.is_empty() {
            state = after(state, &call, |sample, state| {
                for kind in tried(sample, state) {
                    *kinds.entry((kind, state.ratio as u32)).or_default() += 1;
                }
            });
        } else if let Call::Make(..) = call {
            state = Leveller::default();
        }
        *sets.entry(held).or_default() += 1;
    }
    println!("{:?}", LevellerStage::NEW.counts(&list));
    println!("{sets:?}");
    println!("{kinds:?}");
    assert!(kinds.len() == 12 * RATIOS.len() && kinds.values().all(|&count| count >= 4));
    for pair in [[1, 3], [1, 4], [3, 4], [7, 8], [7, 6], [8, 6], [5, 4]] {
        assert!(sets.contains_key(&pair[..]), "{pair:?}");
    }
    for with in [1, 3, 4, 6, 7, 8] {
        assert!(sets.contains_key(&[with, 9][..]), "{with} and 9");
    }
    for alone in [1, 3, 4, 5, 6, 7, 8, 9] {
        assert!(sets.get(&[alone][..]) >= Some(&2), "{alone}");
    }
}
