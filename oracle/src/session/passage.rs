//! A recording through the gate, and an equaliser behind it: by the documents and by the Rust, sample by sample, which must
//! agree; what was aimed open, and how long it was quiet.
use super::told::Span;
use crate::{
    bits::bits32,
    calls::{Rules, Rust, Seen},
    eq::Equaliser,
    gate::Gate,
    limits::LONGEST_BLOCK,
    program::sample,
};

/// A stage both ways.
struct Both<S: Rules> {
    rule: S,
    rust: S::Rust,
}

impl<S: Rules> Both<S> {
    fn new(rule: S) -> Self {
        let rust = S::Rust::holding(&rule);
        Self { rule, rust }
    }

    /// Runs the samples in place; of a gate, what was seen after each.
    fn block(&mut self, samples: &mut [f32]) -> Result<Vec<Seen>, String> {
        let input = samples.to_vec();
        let shown = self.rust.block(&self.rule, samples);
        for (at, (&x, &y)) in input.iter().zip(&*samples).enumerate() {
            let (rule, seen) = (self.rule.sample(x), self.rule.seen());
            let rust = shown.get(at).copied().unwrap_or_default();
            if bits32(rule) != bits32(y) || seen != rust {
                return Err(format!(
                    "{x} becomes {rule}, {seen:x?}; the Rust's {y}, {rust:x?}"
                ));
            }
        }
        Ok(shown)
    }
}

/// What was aimed open, the longest stretch with no loud sample and how many there are at the end, and the samples behind it
/// all, as bytes.
#[derive(Default)]
pub struct Passage {
    pub spans: Vec<Span>,
    pub open: u64,
    pub longest_quiet: Option<Span>,
    pub quiet_at_end: u64,
    pub written: Vec<u8>,
}

impl Passage {
    fn aimed(&mut self, at: u64) {
        self.open += 1;
        match self.spans.last_mut() {
            Some((_, to)) if *to == at => *to += 1,
            _ => self.spans.push((at, at + 1)),
        }
    }

    /// So many samples up to this one were not loud. Of stretches as long the first is kept.
    fn quiet(&mut self, samples: u64, at: u64) {
        self.quiet_at_end = samples;
        let longest = self.longest_quiet.map_or(0, |(from, to)| to - from);
        if samples > longest {
            self.longest_quiet = Some((at + 1 - samples, at + 1));
        }
    }

    fn write(&mut self, samples: &[f32]) -> Result<(), String> {
        for &x in samples {
            self.written.extend(sample::written(x)?.to_le_bytes());
        }
        Ok(())
    }
}

/// What is done with the samples behind the gate.
pub enum Then {
    Nothing,
    Written(Option<Box<Equaliser>>),
}

/// Runs a gate over a recording's bytes.
pub fn of(gate: Gate, bytes: &[u8], then: Then) -> Result<Passage, String> {
    let mut gate = Both::new(gate);
    let (written, equaliser) = match then {
        Then::Nothing => (false, None),
        Then::Written(equaliser) => (true, equaliser),
    };
    let mut equaliser = equaliser.map(|equaliser| Both::new(*equaliser));
    let mut passage = Passage::default();
    let mut at = 0;
    for part in bytes.chunks(2 * LONGEST_BLOCK) {
        let read = |pair: &[u8]| sample::read(i16::from_le_bytes([pair[0], pair[1]]));
        let mut samples: Vec<f32> = part.chunks_exact(2).map(read).collect();
        for seen in gate.block(&mut samples)? {
            if seen.open {
                passage.aimed(at);
            }
            passage.quiet(seen.quiet.into(), at);
            at += 1;
        }
        if let Some(equaliser) = &mut equaliser {
            equaliser.block(&mut samples)?;
        }
        if written {
            passage.write(&samples)?;
        }
    }
    Ok(passage)
}
