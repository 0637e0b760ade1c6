//! Document 01's "Follower and DC blocker", over the bits of f32 numbers.
use super::Part;
use crate::exact::{BINARY32, difference, fma, greater, product, settled, size};

/// A state's three numbers, worked numbers first, then registers.
pub type Numbers = [u64; 3];

/// What a call tells: its answer's number, the value, and the state after it.
pub struct Told {
    pub number: u64,
    pub value: u64,
    pub state: Numbers,
}

pub const ONE: u64 = 0x3f80_0000;
pub const MINUS_ZERO: u64 = 0x8000_0000;

/// A worked number from 0 up to but excluding 1; -0 is 0.
const fn is_accepted(c: u64) -> bool {
    c < ONE || c == MINUS_ZERO
}

impl Part {
    /// How many of the numbers are worked numbers.
    const fn worked(self) -> usize {
        match self {
            Self::Follower => 2,
            Self::Blocker => 1,
        }
    }

    /// Whether each worked number is accepted. No other test is made of a call.
    pub fn accepts(self, state: Numbers) -> bool {
        state[..self.worked()].iter().all(|&c| is_accepted(c))
    }

    /// The state with its registers 0.
    fn at_rest(self, mut state: Numbers) -> Numbers {
        state[self.worked()..].fill(0);
        state
    }
}

const fn done(value: u64, state: Numbers) -> Told {
    Told {
        number: 0,
        value,
        state,
    }
}

/// A refusal's value is +0. The state that it leaves is told with its NaNs settled.
fn refused(number: u64, state: Numbers) -> Told {
    Told {
        number,
        value: 0,
        state: state.map(|bits| settled(BINARY32, bits)),
    }
}

/// What a refused making gives: its c are 1.
fn unmade(part: Part) -> Numbers {
    part.at_rest([ONE; 3])
}

/// Making refuses a bad c by 4.
pub fn make(part: Part, numbers: Numbers) -> Told {
    if part.accepts(numbers) {
        done(0, part.at_rest(numbers))
    } else {
        refused(4, unmade(part))
    }
}

/// A step on a state with a bad c is refused by 9.
pub fn step(part: Part, state: Numbers, x: u64) -> Told {
    if !part.accepts(state) {
        return refused(9, state);
    }
    let next = match part {
        Part::Follower => followed(state, x),
        Part::Blocker => blocked(state, x),
    };
    done(next[2], next)
}

/// A reset on a state with a bad c is refused by 9.
pub fn reset(part: Part, state: Numbers) -> Told {
    if part.accepts(state) {
        done(0, part.at_rest(state))
    } else {
        refused(9, state)
    }
}

/// r is the size of x; c is the attack number if r > level, else the release number; new level =
/// fma(c, level, (1-c)*r).
fn followed([attack, release, level]: Numbers, x: u64) -> Numbers {
    let r = size(BINARY32, x);
    let c = if greater(BINARY32, r, level) {
        attack
    } else {
        release
    };
    let rest = product(BINARY32, difference(BINARY32, ONE, c), r);
    [attack, release, fma(BINARY32, c, level, rest)]
}

/// y = fma(c, y1, x - x1), then x1 = x, y1 = y.
fn blocked([c, x1, y1]: Numbers, x: u64) -> Numbers {
    let y = fma(BINARY32, c, y1, difference(BINARY32, x, x1));
    [c, settled(BINARY32, x), y]
}
