//! The stages that have lists, by name. The lists of `program` are those of `crates/gate`; the others' are
//! `oracle/lists/NAME.calls`.
use crate::{
    clipper::Clipper, common::Common, eq::Eq, float::Float, gate::NoiseGate,
    leveller::LevellerStage, program::Program, replay::Replay, saturator::MultibandSaturator,
    tonestack::ToneStack, wave::Wave, wave_head::WaveHead, wave_write::WaveWrite,
};

pub fn named(name: &str) -> Option<&'static dyn Replay> {
    match name {
        "float" => Some(&Float),
        "common" => Some(&Common),
        "clipper" => Some(&Clipper),
        "noise_gate" => Some(&NoiseGate::NEW),
        "eq" => Some(&Eq::NEW),
        "tonestack" => Some(&ToneStack::NEW),
        "multiband_saturator" => Some(&MultibandSaturator::NEW),
        "leveller" => Some(&LevellerStage::NEW),
        "program" => Some(&Program),
        "wave" => Some(&Wave),
        "wave_write" => Some(&WaveWrite::NEW),
        "wave_head" => Some(&WaveHead::NEW),
        _ => None,
    }
}
