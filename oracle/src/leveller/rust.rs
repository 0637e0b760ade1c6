//! The Rust's compressor with threshold's factor, makeup, the follower's numbers and the gain lent.
use super::rules::{Leveller, RATIOS, gain};
use crate::{
    bits::bits32,
    calls::{self, Seen},
    power::with_power,
};
use rustortion_core::amp::stages::{
    Stage,
    common::FollowerNumbers,
    compressor::{CompressorFactors, CompressorStage},
};

pub struct Rust(CompressorStage);

impl Rust {
    fn run(&mut self, samples: &mut [f32]) -> Vec<Seen> {
        let run = |sample: &mut f32| {
            *sample = self.0.process(*sample);
            Seen {
                level: bits32(self.0.follower().level),
                ..Seen::default()
            }
        };
        samples.iter_mut().map(run).collect()
    }
}

/// The gain by the exponent that the Rust works out from the ratio; another exponent has none.
fn lent(over: f32, exponent: f32) -> f32 {
    match exponent {
        -0.5 => gain(2.0, over),
        -0.75 => gain(4.0, over),
        _ => f32::NAN,
    }
}

impl calls::Rust<Leveller> for Rust {
    fn holding(state: &Leveller) -> Self {
        let mut stage = CompressorStage::new(
            state.attack,
            state.release,
            state.threshold,
            state.ratio,
            0.0,
            state.rate,
        );
        stage.lend_follower(FollowerNumbers {
            attack: state.rising,
            release: state.falling,
            level: state.level,
        });
        let mut rust = Self(stage);
        rust.lend(state);
        rust
    }

    fn stage(&mut self) -> &mut dyn Stage {
        &mut self.0
    }

    fn lend(&mut self, state: &Leveller) {
        self.0.lend_factors(CompressorFactors {
            threshold: state.factor,
            makeup: state.makeup,
        });
        self.0.lend_follower(FollowerNumbers {
            attack: state.rising,
            release: state.falling,
            level: self.0.follower().level,
        });
    }

    fn held(&self, state: &Leveller) -> Leveller {
        let read = |name| self.0.get_parameter(name).expect("a setting");
        let (factors, follower) = (self.0.factors(), self.0.follower());
        Leveller {
            factor: factors.threshold,
            ratio: read("ratio"),
            attack: read("attack"),
            rising: follower.attack,
            release: read("release"),
            falling: follower.release,
            makeup: factors.makeup,
            level: follower.level,
            ..*state
        }
    }

    /// The Rust refuses a threshold below -60 dB and a release below 10 ms. It takes any ratio from 1 to 20, and a
    /// makeup from -12 to 24, which is dB to it.
    fn takes_otherwise(name: &[u8], value: f32) -> bool {
        match name {
            b"threshold" => (-80.0..-60.0).contains(&value),
            b"release" => (1.0..10.0).contains(&value),
            b"ratio" => (1.0..=20.0).contains(&value) && !RATIOS.contains(&value),
            b"makeup" => (-12.0..0.0).contains(&value) || value > 4.0 && value <= 24.0,
            _ => false,
        }
    }

    /// The Rust's threshold and makeup are logarithms.
    fn reads_otherwise(name: &[u8]) -> bool {
        name == b"threshold" || name == b"makeup"
    }

    /// At ratio 1 the exponent is 0, and the Rust works the gain out by itself.
    fn block(&mut self, state: &Leveller, samples: &mut [f32]) -> Vec<Seen> {
        if state.ratio == 1.0 {
            self.run(samples)
        } else {
            with_power(lent, || self.run(samples))
        }
    }
}
