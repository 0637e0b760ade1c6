//! Worked numbers: what the tool says of each must be what the Rust works out, or the header's formula in double, but for
//! the last digits, in which C libraries differ.
use super::told::Band;
use crate::{
    calls::{
        HoldTold, Rules, Rust, hold_told,
        number::{Taker, doubles, kept},
    },
    eq::Equaliser,
    gate::Gate,
};
use rustortion_core::amp::stages::{
    common::{calculate_coefficient, db_to_lin},
    eq::EqStage,
};

/// Units in the last place that a worked number may be off; those of a band are doubles, and such units of 1.
const UNITS: u32 = 2;
const UNITS_OF_ONE: f64 = 16.0;

/// The follower's times, in ms.
const RISING: f64 = 0.1;
const FALLING: f64 = 10.0;

/// exp(-1 / (rate * 0.001 * ms)) in double.
fn smoothing(ms: f64, rate: f32) -> f32 {
    (-1.0 / (f64::from(rate) * 0.001 * ms)).exp() as f32
}

/// 10^(dB / 20) in double.
fn factor(decibels: f64) -> f32 {
    10f64.powf(decibels / 20.0) as f32
}

/// The gate with every worked number by the header's formulas, of the values that are set.
pub fn gate([threshold, ratio, attack, release, hold]: [f32; 5], rate: u32) -> Gate {
    let rate = rate as f32;
    Gate {
        rate,
        threshold,
        factor: factor(threshold.into()),
        ratio,
        attack,
        opening: smoothing(attack.into(), rate),
        release,
        closing: smoothing(release.into(), rate),
        hold,
        rising: smoothing(RISING, rate),
        falling: smoothing(FALLING, rate),
        ..Gate::default()
    }
}

/// The hold in samples and its word, on which document 02 and the Rust agree.
pub fn hold(gate: &Gate) -> Result<HoldTold, String> {
    hold_told(b"hold", gate, &Rust::holding(gate))
}

/// Whether each worked number of a gate is one of the two, and 9 accepts the gate.
pub fn judged(gate: &Gate) -> Result<(), String> {
    let time = |ms: f64| {
        [
            smoothing(ms, gate.rate),
            calculate_coefficient(ms as f32, gate.rate),
        ]
    };
    let decibels = gate.threshold;
    let numbers = [
        (
            "factor",
            gate.factor,
            [factor(decibels.into()), db_to_lin(decibels)],
        ),
        ("opening", gate.opening, time(gate.attack.into())),
        ("closing", gate.closing, time(gate.release.into())),
        ("rising", gate.rising, time(RISING)),
        ("falling", gate.falling, time(FALLING)),
    ];
    for (name, said, worked) in numbers {
        // Of numbers from 0 on the bits count the units.
        let near = |x: f32| said >= 0.0 && said.to_bits().abs_diff(x.to_bits()) <= UNITS;
        if !worked.into_iter().any(near) {
            let [header, rust] = worked;
            return Err(format!(
                "{name} is {said}, the header's {header}, the Rust's {rust}"
            ));
        }
    }
    let accepted = gate.is_acceptable();
    accepted
        .then_some(())
        .ok_or_else(|| format!("9 refuses {gate:?}"))
}

/// The equaliser that these bands make, each with numbers that the Rust works out too.
pub fn equaliser(bands: &[Band], rate: u32) -> Result<Equaliser, String> {
    let refused =
        |number: u32| format!("an equaliser at {rate} Hz with {bands:?} is refused by {number}");
    let mut made = Equaliser::make(0, rate as f32, Taker(&[])).map_err(refused)?;
    for &(band, decibels, said) in bands {
        near_the_rust(band, decibels, said, rate)?;
        let worked = kept(&doubles(&said));
        let name = format!("band_{band}");
        made = made
            .set(name.as_bytes(), decibels, Taker(&worked))
            .map_err(refused)?;
    }
    Ok(made)
}

fn near_the_rust(band: u32, decibels: f32, said: [f64; 5], rate: u32) -> Result<(), String> {
    let mut all = [0.0; 16];
    let place = all
        .get_mut(band as usize)
        .ok_or(format!("no band {band}"))?;
    *place = decibels;
    let rust = EqStage::new(all, rate as f32).band(band as usize);
    let rust = [rust.b0, rust.b1, rust.b2, rust.a1, rust.a2];
    let near = |(&a, &b): (&f64, &f64)| (a - b).abs() <= UNITS_OF_ONE * f64::EPSILON;
    let all_near = said.iter().zip(&rust).all(near);
    all_near
        .then_some(())
        .ok_or_else(|| format!("band {band} has {said:?}, the Rust's {rust:?}"))
}
