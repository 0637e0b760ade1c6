//! Calls on a stage that is made, set, read, reset and run: the noise gate, the equaliser, the tone stack,
//! the saturator, the leveller.
//!
//! A list begins with a state as a refused making leaves it, and each call is on the state that the one
//! before it left. What a call takes, and what an answer has, `oracle/README.md` says; all but the gate
//! have the same layout, that of `call.rs`.
mod call;
mod held;
mod list;
pub mod number;
mod session;

use crate::{
    exact::{CUT, EXACT},
    random::Random,
    replay::{Counts, Replay, answered},
};
pub use call::Call;
use held::Held;
pub use held::{Told, hold_told};
pub use list::List;
use number::{Number, Taker};
use rustortion_core::amp::stages::Stage;
use std::{fmt::Debug, marker::PhantomData};

/// What is compared after each sample beside the output: whether a gate aimed open, a follower's level as bits, and a
/// gate's quiet count, which a done block tells of its last sample.
#[derive(Clone, Copy, Debug, Default, PartialEq, Eq)]
pub struct Seen {
    pub open: bool,
    pub level: u64,
    pub quiet: u32,
}

/// What a hold that was set tells: its truncation's word, and H, the hold in samples. All else tells 0 and 0.
#[derive(Clone, Copy, Debug, Default, PartialEq, Eq)]
pub struct HoldTold {
    pub word: u32,
    pub samples: u64,
}

/// A stage's state as document 01 has it, a leveller's as document 02, and what each call does to it. A refusal is its
/// number.
pub trait Rules: Clone + Debug + Default {
    type Rust: Rust<Self>;

    fn make(model: u32, rate: f32, worked: Taker) -> Result<Self, u32>;

    /// What 9 asks.
    fn is_acceptable(&self) -> bool;

    /// The name of a setting's number.
    fn name(which: u32) -> Vec<u8>;

    /// Sets on a state that 9 accepts.
    fn set(&self, name: &[u8], value: f32, worked: Taker) -> Result<Self, u32>;

    /// What a setting of this name tells of a hold, on the state that it gave. The gate's alone tells anything.
    fn hold_told(&self, _name: &[u8]) -> HoldTold {
        HoldTold::default()
    }

    /// Reads from a state that 9 accepts.
    fn read(&self, name: &[u8]) -> Result<f32, u32>;

    fn at_rest(self) -> Self;

    fn sample(&mut self, input: f32) -> f32;

    /// What the latest sample left; where none was run, what the state has.
    fn seen(&self) -> Seen {
        Seen::default()
    }

    fn numbers(&self) -> Vec<Number>;

    fn of(numbers: Taker) -> Self;

    /// The state that one kept by an earlier release is today. The gate's alone had other numbers.
    fn of_before(numbers: Taker) -> Self {
        Self::of(numbers)
    }
}

/// A Rust stage with worked numbers lent.
pub trait Rust<S> {
    /// A stage that holds these numbers, registers too.
    fn holding(state: &S) -> Self;

    fn stage(&mut self) -> &mut dyn Stage;

    fn reset(&mut self) {
        self.stage().reset();
    }

    /// The Rust works numbers out anew when a setting is set, so they are lent again.
    fn lend(&mut self, state: &S);

    /// The numbers and registers that the Rust has, in the places of the state's own.
    fn held(&self, state: &S) -> S;

    /// What a setting of this name tells of a hold, by the numbers that the Rust has.
    fn hold_told(&self, _name: &[u8]) -> HoldTold {
        HoldTold::default()
    }

    /// Whether of the documents and the Rust one takes this value of a setting and the other refuses it.
    fn takes_otherwise(_name: &[u8], _value: f32) -> bool {
        false
    }

    /// Whether document 01 and the Rust differ about what a setting is read as.
    fn reads_otherwise(_name: &[u8]) -> bool {
        false
    }

    /// Runs the samples; of a stage with a level, what was seen after each.
    fn block(&mut self, _state: &S, samples: &mut [f32]) -> Vec<Seen> {
        for sample in samples {
            *sample = self.stage().process(*sample);
        }
        Vec::new()
    }
}

/// How a stage's lists are made and read, and how its answers are written.
pub trait Listed: Rules {
    fn stored() -> Vec<u8>;

    /// A state carried through calls drawn at random.
    fn session(list: &mut List<Self>);

    /// A call's bytes, in one of its forms.
    fn bytes(call: &Call, random: &mut Random) -> Vec<u8>;

    /// A list's calls, each with the form that it has, where there are two.
    fn calls(list: &[u8]) -> impl Iterator<Item = (Call, &'static str)>;

    /// An answer's bytes; the state is the one after the call.
    fn answer(&self, told: &Told) -> Vec<u8>;
}

impl<S: Drawn> Listed for S {
    fn stored() -> Vec<u8> {
        list::stored::<S>()
    }

    fn session(list: &mut List<Self>) {
        list.session();
    }

    fn bytes(call: &Call, _: &mut Random) -> Vec<u8> {
        call.bytes()
    }

    fn calls(list: &[u8]) -> impl Iterator<Item = (Call, &'static str)> {
        call::list(list, S::BYTES).map(|call| (call, ""))
    }

    fn answer(&self, told: &Told) -> Vec<u8> {
        call::answer(told)
    }
}

/// A setting as a call takes it.
#[derive(Clone, Debug)]
pub struct Setting {
    pub which: u32,
    pub value: f32,
    pub worked: Vec<u8>,
}

/// What lists are made of.
pub trait Drawn: Rules {
    /// How many bytes a state's numbers have.
    const BYTES: usize;

    /// The stored list's seed, and how many samples its done blocks have, at least.
    const SEED: u64;
    const STORED: u64;

    /// A state that 9 accepts, in the middle of its work.
    fn drawn(random: &mut Random) -> Self;

    /// The making and the settings that give its settings.
    fn making(&self) -> Call;
    fn settings(&self) -> Vec<Setting>;

    /// Makings whose worked numbers are at their limits, or are refused.
    fn makings() -> Vec<Call>;

    /// Settings with their values and worked numbers at the limits, and outside them.
    fn at_the_limits() -> Vec<Setting>;

    /// The state spoilt in one number, in every way that 9 has.
    fn spoilt(&self) -> Vec<Self>;

    /// Names: settings', near ones and others.
    fn names(random: &mut Random) -> Vec<Vec<u8>>;

    /// One of the setting's names.
    fn named(which: u32, _random: &mut Random) -> Vec<u8> {
        Self::name(which)
    }

    /// Calls before any making, behind those that every list begins with.
    fn before_making(_list: &mut List<Self>) {}

    /// What only this stage has.
    fn borders(list: &mut List<Self>);
}

/// The replay of a stage that has these calls.
pub struct Called<S>(PhantomData<fn() -> S>);

impl<S> Called<S> {
    pub const NEW: Self = Self(PhantomData);
}

impl<S: Listed> Replay for Called<S> {
    fn stored(&self) -> Vec<u8> {
        S::stored()
    }

    fn generated(&self, random: &mut Random, cases: u64) -> Vec<u8> {
        let mut list = List::<S>::new(random);
        list.sessions(cases);
        list.bytes
    }

    fn answers(&self, calls: &[u8]) -> Result<Vec<u8>, String> {
        let mut held = Held::<S>::default();
        let mut answers = Vec::with_capacity(calls.len() * 2);
        for (call, _) in S::calls(calls) {
            let told = held.told(&call)?;
            answers.extend(held.state.answer(&told));
        }
        Ok(answers)
    }

    fn counts(&self, calls: &[u8]) -> Counts {
        let mut counts = Counts::new();
        let mut held = Held::<S>::default();
        for (call, _) in S::calls(calls) {
            let told = held.told(&call).expect("a list that was answered");
            *counts.entry(call.name()).or_default() += 1;
            *counts.entry(answered(told.number)).or_default() += 1;
            if let (Call::Block(input, _) | Call::Record(input, ..), 0) = (&call, told.number) {
                *counts.entry("samples of done blocks").or_default() += input.len() as u64;
            }
            if told.quiet == u32::MAX {
                *counts.entry("quiet counts at the top").or_default() += 1;
            }
            match told.hold.word {
                EXACT => *counts.entry("holds set, exact").or_default() += 1,
                CUT => *counts.entry("holds set, cut").or_default() += 1,
                _ => {}
            }
        }
        counts
    }

    fn told(&self, calls: &[u8], answer_byte: usize) -> String {
        let mut held = Held::<S>::default();
        let mut left = answer_byte;
        for (index, (call, form)) in S::calls(calls).enumerate() {
            let before = held.state.clone();
            let told = match held.told(&call) {
                Ok(told) => told,
                Err(reason) => return reason,
            };
            let length = held.state.answer(&told).len();
            if left < length {
                return format!(
                    "call {index}, byte {left} of its answer: {call:?} {form} on {before:?}, answered {}",
                    told.number
                );
            }
            left -= length;
        }
        "the list has ended".into()
    }
}
