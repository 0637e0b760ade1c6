//! A lone follower and a lone DC blocker. `oracle/README.md` says what stands where in a call and in its
//! answer.
mod cases;
mod rules;
mod rust;

use crate::{
    random::Random,
    replay::{Counts, Replay},
};
use rules::{Numbers, Told};

/// What is called: a follower's numbers are attack, release and level, a blocker's c, x1 and y1.
#[derive(Clone, Copy)]
enum Part {
    Follower,
    Blocker,
}

#[derive(Clone, Copy)]
enum Action {
    Make,
    Step,
    Reset,
}

#[derive(Clone, Copy)]
struct Call {
    part: Part,
    action: Action,
    state: Numbers,
    x: u64,
}

const BYTES: usize = 20;
const PARTS: [Part; 2] = [Part::Follower, Part::Blocker];
const ACTIONS: [Action; 3] = [Action::Make, Action::Step, Action::Reset];
/// The calls' names, for one that is done and for one that is refused.
const NAMES: [[&str; 2]; 6] = [
    ["follower made", "follower not made"],
    ["follower stepped", "follower not stepped"],
    ["follower reset", "follower not reset"],
    ["blocker made", "blocker not made"],
    ["blocker stepped", "blocker not stepped"],
    ["blocker reset", "blocker not reset"],
];

impl Call {
    /// From 0 to 2 a follower's calls, from 3 to 5 a blocker's.
    const fn index(self) -> usize {
        3 * self.part as usize + self.action as usize
    }

    fn bytes(self) -> Vec<u8> {
        let [a, b, c] = self.state;
        joined([self.index() as u64 + 1, a, b, c, self.x])
    }

    /// The call that 20 bytes say, or none where no call has the number.
    fn read(bytes: &[u8]) -> Option<Self> {
        let word = |at: usize| u32::from_le_bytes(bytes[4 * at..4 * at + 4].try_into().unwrap());
        let index = word(0).checked_sub(1)? as usize;
        Some(Self {
            part: *PARTS.get(index / 3)?,
            action: ACTIONS[index % 3],
            state: [1, 2, 3].map(|at| word(at).into()),
            x: word(4).into(),
        })
    }

    fn name(self) -> &'static str {
        let [done, refused] = NAMES[self.index()];
        if self.part.accepts(self.state) {
            done
        } else {
            refused
        }
    }

    /// What document 01 tells of the call. A step that is done must be the Rust's too.
    fn told(self) -> Result<Told, String> {
        match self.action {
            Action::Make => Ok(rules::make(self.part, self.state)),
            Action::Step => self.stepped(),
            Action::Reset => Ok(rules::reset(self.part, self.state)),
        }
    }

    fn stepped(self) -> Result<Told, String> {
        let told = rules::step(self.part, self.state, self.x);
        let rust = rust::stepped(self.part, self.state, self.x);
        if told.number != 0 || told.state == rust {
            Ok(told)
        } else {
            Err(format!(
                "{} {:x?} by {:x}: Rust {rust:x?}, document 01 {:x?}",
                self.name(),
                self.state,
                self.x,
                told.state
            ))
        }
    }

    fn answer(self) -> Result<Vec<u8>, String> {
        let told = self.told()?;
        let [a, b, c] = told.state;
        Ok(joined([told.number, told.value, a, b, c]))
    }
}

/// Words of four bytes, the lowest byte first.
fn joined(words: [u64; 5]) -> Vec<u8> {
    words.map(|word| (word as u32).to_le_bytes()).concat()
}

pub struct Common;

impl Replay for Common {
    fn stored(&self) -> Vec<u8> {
        cases::stored()
    }

    fn generated(&self, random: &mut Random, cases: u64) -> Vec<u8> {
        cases::generated(random, cases)
    }

    fn answers(&self, calls: &[u8]) -> Result<Vec<u8>, String> {
        let none = || Ok(vec![u8::MAX; BYTES]);
        let calls = calls.chunks_exact(BYTES).map(Call::read);
        let answers = calls.map(|call| call.map_or_else(none, Call::answer));
        Ok(answers.collect::<Result<Vec<_>, _>>()?.concat())
    }

    fn counts(&self, calls: &[u8]) -> Counts {
        let mut counts = Counts::new();
        for call in calls.chunks_exact(BYTES).map(Call::read) {
            *counts
                .entry(call.map_or("no call", Call::name))
                .or_default() += 1;
        }
        counts
    }

    fn told(&self, calls: &[u8], answer_byte: usize) -> String {
        let bytes = calls.chunks_exact(BYTES).nth(answer_byte / BYTES);
        bytes.map_or("the list has ended".into(), |bytes| {
            let name = Call::read(bytes).map_or("no call", Call::name);
            format!("{name}, {bytes:02x?}")
        })
    }
}
