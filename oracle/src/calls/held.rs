//! A stage carried through calls, by document 01 and by the Rust, which must say the same.
use super::{
    Call, HoldTold, Rules, Rust,
    number::{self, Number, Taker, singles},
};
use crate::{
    bits::bits32,
    limits::block_refused,
    replay::{AIM_BEFORE, BEFORE, NO_CALL},
};

/// What a call tells: document 01's number, value, place and open count, document 02's word of a hold and quiet count, and
/// what stands behind them.
#[derive(Default)]
pub struct Told {
    pub number: u32,
    pub value: f32,
    pub place: u64,
    pub count: u64,
    pub hold: HoldTold,
    pub quiet: u32,
    pub behind: Vec<Number>,
}

impl Told {
    fn refused(number: u32) -> Self {
        Self {
            number,
            ..Self::default()
        }
    }
}

/// The state that calls are made on: document 01's, and the Rust's while 9 accepts it.
pub struct Held<S: Rules> {
    pub state: S,
    rust: Option<S::Rust>,
}

impl<S: Rules> Default for Held<S> {
    fn default() -> Self {
        Self::new(S::default())
    }
}

impl<S: Rules> Held<S> {
    fn new(state: S) -> Self {
        let rust = state.is_acceptable().then(|| S::Rust::holding(&state));
        Self { state, rust }
    }

    pub fn told(&mut self, call: &Call) -> Result<Told, String> {
        match call {
            Call::Make(model, rate, worked) => Ok(self.make(*model, *rate, Taker(worked))),
            Call::Load(numbers) => {
                *self = Self::new(S::of(Taker(numbers)));
                Ok(Told::default())
            }
            Call::LoadBefore(numbers) => {
                *self = Self::new(S::of_before(Taker(numbers)));
                Ok(Told::default())
            }
            Call::Set(which, value, worked) => self.set(&S::name(*which), *value, Taker(worked)),
            Call::SetNamed(name, value, worked) => self.set(name, *value, Taker(worked)),
            Call::Read(name) => self.read(name),
            Call::Reset => self.reset(),
            Call::Block(input, places) => self.block(input, *places, None),
            Call::Record(input, places, bytes) => self.block(input, *places, Some(*bytes)),
            Call::Tell => Ok(Told {
                behind: self.state.numbers(),
                ..Told::default()
            }),
            Call::Unknown(_) => Ok(Told::refused(NO_CALL)),
        }
    }

    /// A refused making gives a state whose numbers are all 0.
    fn make(&mut self, model: u32, rate: f32, worked: Taker) -> Told {
        let (state, number) = match S::make(model, rate, worked) {
            Ok(state) => (state, 0),
            Err(number) => (S::default(), number),
        };
        *self = Self::new(state);
        Told::refused(number)
    }

    fn set(&mut self, name: &[u8], value: f32, worked: Taker) -> Result<Told, String> {
        let Some(rust) = &mut self.rust else {
            return Ok(Told::refused(9));
        };
        let (state, number) = match self.state.set(name, value, worked) {
            Ok(state) => (state, 0),
            Err(number) => (self.state.clone(), number),
        };
        // The Rust looks at no worked number.
        if number != 4 {
            let refused = match std::str::from_utf8(name) {
                Ok(name) => rust.stage().set_parameter(name, value).is_err(),
                Err(_) => true,
            };
            let otherwise = S::Rust::takes_otherwise(name, value);
            if refused != ((number != 0) != otherwise) {
                return Err(format!(
                    "setting {name:?} to {value}: {number}, the Rust refuses: {refused}"
                ));
            }
            if otherwise {
                *rust = S::Rust::holding(&state);
            }
        }
        rust.lend(&state);
        let hold = match number {
            0 => hold_told(name, &state, rust)?,
            _ => HoldTold::default(),
        };
        self.state = state;
        self.agrees()?;
        Ok(Told {
            hold,
            ..Told::refused(number)
        })
    }

    fn read(&mut self, name: &[u8]) -> Result<Told, String> {
        let Some(rust) = &mut self.rust else {
            return Ok(Told::refused(9));
        };
        let read = self.state.read(name);
        let given = std::str::from_utf8(name).map(|name| rust.stage().get_parameter(name));
        let same = match (read, given) {
            (Ok(value), Ok(Ok(given))) => {
                bits32(value) == bits32(given) || S::Rust::reads_otherwise(name)
            }
            (Err(_), Ok(Err(_)) | Err(_)) => true,
            _ => false,
        };
        if !same {
            return Err(format!("reading {name:?}: {read:?}, the Rust {given:?}"));
        }
        Ok(match read {
            Ok(value) => Told {
                value,
                ..Told::default()
            },
            Err(number) => Told::refused(number),
        })
    }

    fn reset(&mut self) -> Result<Told, String> {
        let Some(rust) = &mut self.rust else {
            return Ok(Told::refused(9));
        };
        rust.reset();
        self.state = self.state.clone().at_rest();
        self.agrees()?;
        Ok(Told::default())
    }

    /// The number and the place that refuse a block, if anything does: 9, 7, 8, 6. A buffer for aims is the third whose
    /// length 7 looks at.
    fn block_refused(
        &self,
        input: &[f32],
        places: usize,
        aims: Option<usize>,
    ) -> Option<(u32, u64)> {
        if self.rust.is_none() {
            Some((9, 0))
        } else if aims.is_some_and(|bytes| bytes != input.len()) {
            Some((7, 0))
        } else {
            block_refused(input, places)
        }
    }

    /// A block, and behind its output the aims, where there is a buffer of so many bytes for them.
    fn block(&mut self, input: &[f32], places: usize, aims: Option<usize>) -> Result<Told, String> {
        if let Some((number, place)) = self.block_refused(input, places, aims) {
            let mut behind = singles(&vec![BEFORE; places]);
            behind.extend(vec![Number::Byte(AIM_BEFORE); aims.unwrap_or(0)]);
            return Ok(Told {
                place,
                behind,
                ..Told::refused(number)
            });
        }
        let (output, open) = self.ran(input)?;
        let mut behind = singles(&output);
        if aims.is_some() {
            behind.extend(open.iter().map(|&open| Number::Byte(open.into())));
        }
        Ok(Told {
            count: open.iter().map(|&open| u64::from(open)).sum(),
            quiet: self.state.seen().quiet,
            behind,
            ..Told::default()
        })
    }

    /// The outputs of samples that are accepted, and whether the gate aimed open at each.
    fn ran(&mut self, input: &[f32]) -> Result<(Vec<f32>, Vec<bool>), String> {
        let mut output = input.to_vec();
        let rust = self.rust.as_mut().expect("a state that 9 accepts");
        let shown = rust.block(&self.state, &mut output);
        let mut open = Vec::with_capacity(input.len());
        for (place, (&input, &output)) in input.iter().zip(&output).enumerate() {
            let rule = self.state.sample(input);
            let seen = self.state.seen();
            let rust = shown.get(place).copied().unwrap_or_default();
            if bits32(rule) != bits32(output) || seen != rust {
                return Err(format!(
                    "sample {place}, {input}: {rule}, {seen:x?}, the Rust {output}, {rust:x?}"
                ));
            }
            open.push(seen.open);
        }
        self.agrees()?;
        Ok((output, open))
    }

    /// Whether the Rust holds the numbers that document 01 says.
    fn agrees(&self) -> Result<(), String> {
        let Some(rust) = &self.rust else {
            return Ok(());
        };
        let held = rust.held(&self.state);
        if number::told(&held.numbers()) == number::told(&self.state.numbers()) {
            Ok(())
        } else {
            Err(format!("{:?}, the Rust {held:?}", self.state))
        }
    }
}

/// What a done setting tells of a hold, on which document 02 and the Rust must agree.
pub fn hold_told<S: Rules>(name: &[u8], state: &S, rust: &S::Rust) -> Result<HoldTold, String> {
    let [told, by_rust] = [state.hold_told(name), rust.hold_told(name)];
    if told == by_rust {
        Ok(told)
    } else {
        Err(format!(
            "setting {name:?} tells {told:?}, the Rust {by_rust:?}, of {state:?}"
        ))
    }
}
