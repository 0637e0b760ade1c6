//! A gate's call as bytes, and its answer.
use super::{rules::Gate, setting::Setting};
use crate::calls::{
    Call, Rules, Told,
    number::{self, Number, Taker, kept, single_bytes},
};

/// The bytes of a call without what stands behind them, how many of a state's are among them, where a name stands in them,
/// and the most samples.
const LENGTH: usize = 64;
const STATE: usize = LENGTH - 4;
const NAME: usize = 16;
const MOST: usize = 4097;

pub fn make(rate: f32, rising: f32, falling: f32) -> Call {
    Call::Make(0, rate, single_bytes(&[rising, falling]))
}

pub fn named(name: &[u8], value: f32, worked: f32) -> Call {
    Call::SetNamed(name.into(), value, single_bytes(&[worked]))
}

/// A setting by its number; beside one that takes no worked number stands anything.
pub fn typed(setting: Setting) -> Call {
    let worked = match setting {
        Setting::Hold(_) => f32::INFINITY,
        setting => setting.worked().unwrap_or(f32::NAN),
    };
    Call::Set(setting.which(), setting.value(), single_bytes(&[worked]))
}

/// A load of the gate as releases before the quiet count kept it.
pub fn load(gate: Gate) -> Call {
    Call::LoadBefore(kept(&gate.numbers_before()))
}

pub fn hand_back(gate: Gate) -> Call {
    Call::Load(kept(&gate.numbers()))
}

/// A call's bytes; `in_place` asks for the form on the gate where it lies, where there is one.
pub fn bytes(call: &Call, in_place: bool) -> Vec<u8> {
    let number = match call {
        Call::Make(..) => 1,
        Call::Set(..) => 2,
        Call::SetNamed(..) => 3 + 5 * u32::from(in_place),
        Call::Read(_) => 4,
        Call::Reset => 5 + 4 * u32::from(in_place),
        Call::Block(..) => 6 + 4 * u32::from(in_place),
        Call::LoadBefore(_) => 7,
        Call::Record(..) => 11,
        Call::Load(_) => 13,
        Call::Tell => unreachable!("every answer of a gate tells its state"),
        &Call::Unknown(number) => number,
    };
    let mut bytes = words(&[number]);
    bytes.extend(taken(call));
    bytes.resize(LENGTH, 0);
    bytes.extend(behind(call));
    bytes
}

/// What stands behind the 64 bytes: a block's samples, or what of a state they have no room for.
fn behind(call: &Call) -> Vec<u8> {
    match call {
        Call::Block(samples, _) | Call::Record(samples, ..) => single_bytes(samples),
        Call::Load(state) => state[STATE..].to_vec(),
        _ => Vec::new(),
    }
}

/// What the call takes.
fn taken(call: &Call) -> Vec<u8> {
    let sized = |name: &[u8]| [&words(&[name.len() as u32]), name].concat();
    match call {
        Call::Make(_, rate, worked) => [&single_bytes(&[*rate]), &worked[..]].concat(),
        Call::Set(which, value, worked) => {
            [&words(&[*which, value.to_bits()]), &worked[..]].concat()
        }
        Call::SetNamed(name, value, worked) => {
            [&single_bytes(&[*value]), &worked[..], &sized(name)].concat()
        }
        Call::Read(name) => [vec![0; 8], sized(name)].concat(),
        Call::Block(samples, places) => words(&[samples.len() as u32, *places as u32]),
        Call::Record(samples, places, aims) => {
            words(&[samples.len() as u32, *places as u32, *aims as u32])
        }
        Call::LoadBefore(state) => state.clone(),
        Call::Load(state) => state[..STATE].to_vec(),
        Call::Reset | Call::Tell | Call::Unknown(_) => Vec::new(),
    }
}

fn words(words: &[u32]) -> Vec<u8> {
    words.iter().flat_map(|word| word.to_le_bytes()).collect()
}

/// The calls of a list, and the form of each. What is left behind the last whole call is none.
pub fn list(bytes: &[u8]) -> impl Iterator<Item = (Call, &'static str)> + '_ {
    let mut rest = bytes;
    std::iter::from_fn(move || {
        let (head, behind) = rest.split_at_checked(LENGTH)?;
        let (mut call, form) = read(head);
        let (held, behind) = behind.split_at_checked(self::behind(&call).len())?;
        rest = behind;
        match &mut call {
            Call::Block(samples, _) | Call::Record(samples, ..) => *samples = Taker(held).singles(),
            Call::Load(state) => state[STATE..].copy_from_slice(held),
            _ => {}
        }
        Some((call, form))
    })
}

/// The call that 64 bytes say, with zeros for what stands behind them.
fn read(head: &[u8]) -> (Call, &'static str) {
    let word = |at: usize| Taker(&head[at..]).whole();
    let float = |at: usize| Taker(&head[at..]).single();
    let length = |at: usize| (word(at) as usize).min(MOST);
    let worked = |at: usize, bytes: usize| head[at..at + bytes].to_vec();
    let name = || head[NAME..NAME + (word(12) as usize).min(LENGTH - NAME)].to_vec();
    let number = word(0);
    let call = match number {
        1 => Call::Make(0, float(4), worked(8, 8)),
        2 => Call::Set(word(4), float(8), worked(12, 4)),
        3 | 8 => Call::SetNamed(name(), float(4), worked(8, 4)),
        4 => Call::Read(name()),
        5 | 9 => Call::Reset,
        6 | 10 => Call::Block(vec![0.0; length(4)], length(8)),
        7 => Call::LoadBefore(head[4..].to_vec()),
        11 => Call::Record(vec![0.0; length(4)], length(8), length(12)),
        13 => Call::Load([&head[4..], &[0; 4]].concat()),
        number => Call::Unknown(number),
    };
    let in_place = (8..=10).contains(&number);
    (call, if in_place { "in place" } else { "by value" })
}

/// An answer's bytes: what the call tells, the gate after it, a block's output and its aims.
pub fn answer(gate: &Gate, told: &Told) -> Vec<u8> {
    let mut numbers = vec![Number::Whole(told.number), Number::Single(told.value)];
    numbers.extend([told.place, told.count].map(Number::Long));
    numbers.push(Number::Whole(told.hold.word));
    numbers.push(Number::Long(told.hold.samples));
    numbers.push(Number::Whole(told.quiet));
    numbers.extend(gate.numbers());
    numbers.extend(&told.behind);
    number::told(&numbers)
}
