//! The noise gate. Its calls are those of the other stages, in bytes of its own: 64 for a call, with a block's
//! samples behind them, and setting by name, reset and block both by value and on the gate where it lies; a block
//! with a record of the aims; and a load of a state from before there was a quiet count.
mod call;
mod cases;
mod holds;
#[cfg(test)]
mod needs;
#[cfg(test)]
mod needs_of_quiet;
#[cfg(test)]
mod needs_of_words;
mod numbers;
mod quiet;
mod records;
mod rules;
mod rust;
mod session;
mod setting;
mod words;

use crate::{
    calls::{Call, Called, List, Listed, Told},
    random::Random,
};
pub use rules::Gate;

pub type NoiseGate = Called<Gate>;

impl Listed for Gate {
    fn stored() -> Vec<u8> {
        cases::stored()
    }

    fn session(list: &mut List<Self>) {
        list.hold_session();
        list.quiet_session();
        if list.random.coin() {
            list.session();
        } else {
            list.recorded_session();
        }
    }

    /// By value or in place.
    fn bytes(call: &Call, random: &mut Random) -> Vec<u8> {
        call::bytes(call, random.coin())
    }

    fn calls(list: &[u8]) -> impl Iterator<Item = (Call, &'static str)> {
        call::list(list)
    }

    fn answer(&self, told: &Told) -> Vec<u8> {
        call::answer(self, told)
    }
}
