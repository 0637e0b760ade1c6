//! A call as bytes: a head of 128, and a block's samples or a state's numbers behind it; and its answer.
use super::{
    Told,
    number::{self, Number, Taker, single_bytes},
};

/// Worked numbers and a state's are kept as their bytes, which each stage takes apart.
#[derive(Clone, Debug)]
pub enum Call {
    /// A model's number, a rate and worked numbers.
    Make(u32, f32, Vec<u8>),
    /// A setting by its number, a value and worked numbers.
    Set(u32, f32, Vec<u8>),
    SetNamed(Vec<u8>, f32, Vec<u8>),
    Read(Vec<u8>),
    Reset,
    /// Samples, and how many the buffer for the output has.
    Block(Vec<f32>, usize),
    /// A block that also tells each sample's aim, and how many bytes the buffer for the aims has. The gate's alone.
    Record(Vec<f32>, usize, usize),
    /// A host hands a state's numbers back.
    Load(Vec<u8>),
    /// A host loads a state that an earlier release kept. The gate's alone.
    LoadBefore(Vec<u8>),
    /// The state's numbers.
    Tell,
    /// No call has the number.
    Unknown(u32),
}

/// The bytes of a head, where its worked numbers and its name begin, and the most samples of a block.
const HEAD: usize = 128;
const WORKED: usize = 16;
const NAME: usize = 64;
const MOST: usize = 4097;

impl Call {
    pub const fn name(&self) -> &'static str {
        match self {
            Self::Make(..) => "makings",
            Self::Set(..) => "settings, typed",
            Self::SetNamed(..) => "settings by name",
            Self::Read(_) => "readings",
            Self::Reset => "resets",
            Self::Block(..) => "blocks",
            Self::Record(..) => "blocks with a record",
            Self::Load(_) => "states handed back",
            Self::LoadBefore(_) => "states from before loaded",
            Self::Tell => "states told",
            Self::Unknown(_) => "no call",
        }
    }

    pub fn bytes(&self) -> Vec<u8> {
        let (number, which, value) = match self {
            &Self::Make(which, rate, _) => (1, which, rate.to_bits()),
            &Self::Set(which, value, _) => (2, which, value.to_bits()),
            Self::SetNamed(_, value, _) => (3, 0, value.to_bits()),
            Self::Read(_) => (4, 0, 0),
            Self::Reset => (5, 0, 0),
            Self::Block(samples, places) => (6, samples.len() as u32, *places as u32),
            Self::Record(..) => unreachable!("only a gate has aims"),
            Self::Load(_) => (7, 0, 0),
            Self::LoadBefore(_) => unreachable!("only a gate had other numbers"),
            Self::Tell => (8, 0, 0),
            &Self::Unknown(number) => (number, 0, 0),
        };
        let length = self.named().len() as u32;
        let mut bytes: Vec<u8> = [number, which, value, length]
            .into_iter()
            .flat_map(u32::to_le_bytes)
            .collect();
        bytes.extend(self.worked());
        if !self.named().is_empty() {
            bytes.resize(NAME, 0);
            bytes.extend(self.named());
        }
        bytes.resize(HEAD, 0);
        bytes.extend(self.behind());
        bytes
    }

    fn named(&self) -> &[u8] {
        match self {
            Self::SetNamed(name, ..) | Self::Read(name) => name,
            _ => &[],
        }
    }

    fn worked(&self) -> &[u8] {
        match self {
            Self::Make(.., worked) | Self::Set(.., worked) | Self::SetNamed(.., worked) => worked,
            _ => &[],
        }
    }

    /// What stands behind the head.
    fn behind(&self) -> Vec<u8> {
        match self {
            Self::Block(samples, _) => single_bytes(samples),
            Self::Load(state) => state.clone(),
            _ => Vec::new(),
        }
    }
}

/// The calls of a list, whose states have so many bytes. What is left behind the last whole call is
/// none.
pub fn list(bytes: &[u8], state: usize) -> impl Iterator<Item = Call> + '_ {
    let mut rest = bytes;
    std::iter::from_fn(move || {
        let (head, behind) = rest.split_at_checked(HEAD)?;
        let (call, length) = read(head, state);
        let (held, behind) = behind.split_at_checked(length)?;
        rest = behind;
        Some(match call {
            Call::Block(_, places) => Call::Block(Taker(held).singles(), places),
            Call::Load(_) => Call::Load(held.into()),
            call => call,
        })
    })
}

/// The call that a head says, and how many bytes stand behind it, not yet read.
fn read(head: &[u8], state: usize) -> (Call, usize) {
    let mut words = Taker(head);
    let [number, which, value, length] = [(); 4].map(|()| words.whole());
    let worked = head[WORKED..].to_vec();
    let name = head[NAME..NAME + (length as usize).min(HEAD - NAME)].to_vec();
    let float = f32::from_bits(value);
    let most = |count: u32| (count as usize).min(MOST);
    match number {
        1 => (Call::Make(which, float, worked), 0),
        2 => (Call::Set(which, float, worked), 0),
        3 => (Call::SetNamed(name, float, worked), 0),
        4 => (Call::Read(name), 0),
        5 => (Call::Reset, 0),
        6 => (Call::Block(Vec::new(), most(value)), 4 * most(which)),
        7 => (Call::Load(Vec::new()), state),
        8 => (Call::Tell, 0),
        number => (Call::Unknown(number), 0),
    }
}

/// An answer's bytes.
pub fn answer(told: &Told) -> Vec<u8> {
    let mut numbers = vec![Number::Whole(told.number), Number::Single(told.value)];
    numbers.push(Number::Long(told.place));
    numbers.extend(&told.behind);
    number::told(&numbers)
}
