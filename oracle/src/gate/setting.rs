//! Document 01's settings of a gate: what each may be, and what it changes.
use super::rules::{Gate, LONGEST_HOLD};
use crate::limits::{is_smoothing, is_threshold_factor};

/// A setting with its value and the worked number that it takes.
#[derive(Clone, Copy, Debug)]
pub enum Setting {
    Threshold(f32, f32),
    Ratio(f32),
    Attack(f32, f32),
    Release(f32, f32),
    Hold(f32),
}

pub const NAMES: [&str; 5] = ["threshold", "ratio", "attack", "release", "hold"];

impl Setting {
    /// The setting that a name asks for, with the numbers beside it.
    pub fn named(name: &[u8], value: f32, worked: f32) -> Option<Self> {
        match name {
            b"threshold" => Some(Self::Threshold(value, worked)),
            b"ratio" => Some(Self::Ratio(value)),
            b"attack" => Some(Self::Attack(value, worked)),
            b"release" => Some(Self::Release(value, worked)),
            b"hold" => Some(Self::Hold(value)),
            _ => None,
        }
    }

    /// Its number, and its name's place.
    pub const fn which(self) -> u32 {
        match self {
            Self::Threshold(..) => 0,
            Self::Ratio(_) => 1,
            Self::Attack(..) => 2,
            Self::Release(..) => 3,
            Self::Hold(_) => 4,
        }
    }

    pub const fn name(self) -> &'static str {
        NAMES[self.which() as usize]
    }

    pub const fn value(self) -> f32 {
        match self {
            Self::Threshold(value, _) | Self::Attack(value, _) | Self::Release(value, _) => value,
            Self::Ratio(value) | Self::Hold(value) => value,
        }
    }

    /// The worked number that it takes, if any.
    pub const fn worked(self) -> Option<f32> {
        match self {
            Self::Threshold(_, worked) | Self::Attack(_, worked) | Self::Release(_, worked) => {
                Some(worked)
            }
            Self::Ratio(_) | Self::Hold(_) => None,
        }
    }

    pub fn is_in_range(self) -> bool {
        match self {
            Self::Threshold(value, _) => (-80.0..=0.0).contains(&value),
            Self::Ratio(value) => (1.0..=100.0).contains(&value),
            Self::Attack(value, _) => (0.1..=100.0).contains(&value),
            Self::Release(value, _) => (1.0..=1_000.0).contains(&value),
            Self::Hold(value) => (0.0..=LONGEST_HOLD).contains(&value),
        }
    }

    pub fn is_worked(self) -> bool {
        match self {
            Self::Threshold(_, factor) => is_threshold_factor(factor),
            Self::Attack(_, c) | Self::Release(_, c) => is_smoothing(c),
            Self::Ratio(_) | Self::Hold(_) => true,
        }
    }

    pub fn is_allowed(self) -> bool {
        self.is_in_range() && self.is_worked()
    }

    pub const fn taken(self, mut gate: Gate) -> Gate {
        match self {
            Self::Threshold(value, factor) => (gate.threshold, gate.factor) = (value, factor),
            Self::Ratio(value) => gate.ratio = value,
            Self::Attack(value, c) => (gate.attack, gate.opening) = (value, c),
            Self::Release(value, c) => (gate.release, gate.closing) = (value, c),
            Self::Hold(value) => gate.hold = value,
        }
        gate
    }
}
