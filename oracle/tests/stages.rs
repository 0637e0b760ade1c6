//! Every Rust stage runs, and takes the numbers that are lent to it.
use oracle::power::with_power;
use rustortion_core::amp::stages::{
    Stage,
    clipper::{ClipperType, triode_table},
    common::{BlockerNumbers, DcBlocker, EnvelopeFollower, FollowerNumbers},
    compressor::{CompressorFactors, CompressorStage},
    eq::{BandNumbers, EqStage},
    filter::{FilterStage, FilterType},
    multiband_saturator::{CrossoverNumbers, DynamicsNumbers, MultibandSaturatorStage},
    noise_gate::{GateRegisters, NoiseGateStage},
    poweramp::{PowerAmpStage, PowerAmpType},
    preamp::PreampStage,
    tonestack::{ToneStackModel, ToneStackStage},
};

#[test]
fn a_follower_takes_its_numbers() {
    let mut follower = EnvelopeFollower::lent(FollowerNumbers {
        attack: 0.5,
        release: 0.25,
        level: 1.0,
    });
    assert_eq!(follower.process(-3.0), 2.0);
    assert_eq!(follower.process(0.0), 0.5);
    assert_eq!(follower.numbers().level, 0.5);
}

#[test]
fn a_blocker_takes_its_numbers() {
    let mut blocker = DcBlocker::lent(BlockerNumbers {
        c: 0.5,
        x1: 1.0,
        y1: 8.0,
    });
    assert_eq!(blocker.process(3.0), 6.0);
    assert_eq!([blocker.numbers().x1, blocker.numbers().y1], [3.0, 6.0]);
}

/// The program of document 01, and its row P10.
#[test]
fn a_gate_takes_its_numbers() {
    let mut gate = NoiseGateStage::new(-12.0, 2.0, 1.0, 0.0625, 100.0, 48_000.0);
    gate.lend_threshold(0.25);
    gate.lend_smoothing(0.0, 0.0);
    gate.lend_follower(0.0, 0.0);
    let mut samples = [0.25, 0.5, 0.125, 0.125, 0.125];
    gate.process_block(&mut samples);
    assert_eq!(samples, [0.125, 0.5, 0.125, 0.125, 0.0625]);
    gate.load(GateRegisters {
        level: 0.0,
        state: 1.0,
        counter: 2,
    });
    assert_eq!(gate.process(0.125), 0.125);
    assert!(gate.aimed_open());
    assert_eq!(gate.registers().counter, 1);
}

/// Document 01's row P6.
#[test]
fn a_gate_holds_by_truncation() {
    for (hold, samples) in [(0.0625, 3), (50.0, 2_400), (0.0, 0)] {
        let gate = NoiseGateStage::new(0.0, 10.0, 1.0, hold, 100.0, 48_000.0);
        assert_eq!(gate.hold_samples(), samples);
    }
}

#[test]
fn a_band_takes_its_numbers() {
    let mut eq = EqStage::new([0.0; 16], 48_000.0);
    assert_eq!(eq.process(0.75), 0.75);
    let halved = BandNumbers {
        b0: 0.5,
        b1: 0.25,
        b2: 0.0,
        a1: 0.0,
        a2: 0.0,
    };
    eq.reset();
    eq.lend_band(3, halved);
    assert_eq!(eq.band(3), halved);
    assert_eq!([eq.process(1.0), eq.process(0.0)], [0.5, 0.25]);
    assert_eq!([eq.registers(3).x2, eq.registers(3).y1], [1.0, 0.25]);
    assert_eq!(EqStage::index_of("band_+3"), Some(3));
}

#[test]
fn a_tone_stack_takes_a_lent_power() {
    let made = || ToneStackStage::new(ToneStackModel::Flat, 1.0, 1.0, 1.0, 1.5, 48_000.0);
    let plain = made().process(0.5);
    let lent = |factor: f32| with_power(move |_, _| factor, || made().process(0.5));
    assert_eq!(lent(10f32.powf(0.15)), plain);
    assert_ne!(lent(2.0), plain);
    assert_eq!(made().process(0.5), plain);
}

#[test]
fn a_saturator_takes_its_numbers() {
    let mut saturator =
        MultibandSaturatorStage::new(0.0, 0.0, 0.0, 1.0, 1.0, 1.0, 200.0, 2_000.0, 48_000.0);
    let low_band_alone = CrossoverNumbers {
        low_pass: [1.0, 0.0, 0.0, 0.0, 0.0],
        high_pass: [0.0; 5],
    };
    saturator.lend_low(low_band_alone);
    saturator.lend_high(low_band_alone);
    saturator.lend_dynamics(DynamicsNumbers {
        attack: 0.0,
        release: 0.0,
        blocker: 0.0,
    });
    assert_eq!(saturator.low(), low_band_alone);
    assert_eq!(saturator.high(), low_band_alone);
    assert_eq!(saturator.process(1.0), 0.5);
    let registers = saturator.registers();
    assert_eq!(registers.levels, [1.0, 0.0, 0.0]);
    assert_eq!(registers.x1, [0.5, 0.0, 0.0]);
    saturator.reset();
    saturator.load(registers);
    assert_eq!(saturator.registers(), registers);
}

#[test]
fn clippers_clip() {
    assert_eq!(ClipperType::Hard.process(0.75, 2.0), 1.0);
    assert_eq!(ClipperType::Triode.process(-20.0, 1.0), -1.0);
    let table = triode_table();
    assert_eq!([table[0], table[255]], [-1.0, 1.0]);
    assert!(table.is_sorted());
}

#[test]
fn a_compressor_takes_a_lent_power() {
    let mut compressor = CompressorStage::new(1.0, 100.0, 0.0, 2.0, 0.0, 48_000.0);
    let factors = CompressorFactors {
        threshold: 0.25,
        makeup: 2.0,
    };
    compressor.lend_factors(factors);
    assert_eq!(compressor.factors(), factors);
    compressor.lend_follower(FollowerNumbers {
        attack: 0.0,
        release: 0.0,
        level: 0.0,
    });
    let root = |over: f32, _: f32| 1.0 / over.sqrt();
    assert_eq!(with_power(root, || compressor.process(1.0)), 1.0);
    assert_eq!(compressor.follower().level, 1.0);
}

/// The power's exponent is 0 there.
#[test]
fn a_compressor_at_ratio_1_needs_no_power() {
    let mut compressor = CompressorStage::new(1.0, 100.0, 0.0, 1.0, 0.0, 48_000.0);
    compressor.lend_factors(CompressorFactors {
        threshold: 0.1,
        makeup: 0.5,
    });
    compressor.lend_follower(FollowerNumbers {
        attack: 0.5,
        release: 0.25,
        level: 1.0,
    });
    assert_eq!(compressor.process(-3.0), -1.5);
    assert_eq!(compressor.follower().level, 2.0);
}

/// Ranges that are not document 02's.
#[test]
fn a_compressor_has_ranges_of_its_own() {
    let mut compressor = CompressorStage::new(1.0, 100.0, 0.0, 1.0, 0.0, 48_000.0);
    let mut takes = |name, value| compressor.set_parameter(name, value).is_ok();
    assert!(takes("threshold", -60.0) && !takes("threshold", -60.1));
    assert!(takes("ratio", 3.0) && takes("ratio", 20.0) && !takes("ratio", 20.1));
    assert!(takes("release", 10.0) && !takes("release", 9.9));
    assert!(takes("makeup", -12.0) && takes("makeup", 24.0) && !takes("makeup", 24.1));
}

/// The stages that nothing is carried over from run too.
#[test]
fn silence_stays_silence() {
    let mut stages: [Box<dyn Stage>; 3] = [
        Box::new(FilterStage::new(FilterType::Lowpass, 1_000.0, 48_000.0)),
        Box::new(PowerAmpStage::new(
            0.5,
            PowerAmpType::ClassAB,
            0.5,
            100.0,
            48_000.0,
        )),
        Box::new(PreampStage::new(2.0, 0.5, ClipperType::Soft, 48_000.0)),
    ];
    for stage in &mut stages {
        assert_eq!(stage.process(0.0), 0.0);
        assert_ne!(stage.process(0.5), 0.0);
    }
}
