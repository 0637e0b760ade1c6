//! Lists of calls: the one that is stored, and new ones.
use super::{Call, Kind, rules::Block};
use crate::{
    exact::BINARY32,
    random::Random,
    shapes::{exponent, normal, nudged, special, specials, subnormal},
};

const KINDS: [Kind; 2] = [Kind::Hard, Kind::Triode];

const ONE: u32 = 0x3f80_0000;
const SIXTY_FOUR: u32 = 0x4280_0000;
const INFINITY: u32 = 0x7f80_0000;
const NEGATIVE: u32 = 0x8000_0000;

/// 0, -0, tiny, 1, 1e38 and their negatives; then what is refused.
const DRIVES: [u32; 8] = [
    0,
    1,
    0x0080_0000,
    0x3c23_d70a,
    ONE,
    0x4000_0000,
    0x41a0_0000,
    0x7e96_7699,
];
const NOT_FINITE: [u32; 5] = [INFINITY, 0xff80_0000, 0x7fc0_0000, 0xffc0_0001, 0x7f80_0001];

/// The lengths of blocks around those that document 01 names.
const LENGTHS: [usize; 5] = [0, 1, 4_095, 4_096, 4_097];

/// The stored list: the whole table and what lies behind it, sweeps over both clamps and every cell of
/// the table, each drive, each refusal with its place, the named lengths, single samples of any bits,
/// calls of no number, and one that ends too soon.
pub fn stored() -> Vec<u8> {
    let mut random = Random::new(6);
    let mut list: Vec<Call> = (0..=256)
        .chain([u32::MAX])
        .map(|place| Call::Entry { place })
        .collect();
    list.extend(sweeps());
    list.extend(KINDS.into_iter().flat_map(driven));
    list.extend(KINDS.into_iter().flat_map(refused));
    for length in LENGTHS {
        list.extend(KINDS.map(|kind| block(kind, ONE, heard(length, &mut random))));
    }
    list.extend(singles(&mut random));
    list.extend([0, 6, 7, u32::MAX].map(|number| Call::None { number }));
    let mut bytes: Vec<u8> = list.iter().flat_map(Call::bytes).collect();
    bytes.extend(Call::None { number: 1 }.bytes());
    bytes
}

/// A new list: of each kind `samples` samples in done blocks, a block that can be refused for each 2,000
/// of them, and a single sample for each 100.
pub fn generated(random: &mut Random, samples: u64) -> Vec<u8> {
    let mut list = Vec::new();
    for kind in KINDS {
        let mut left = samples;
        while left > 0 {
            let length = (1 + random.below(4_096)).min(left);
            list.push(drawn(kind, length as usize, random));
            left -= length;
        }
        list.extend((0..samples / 2_000).map(|_| spoiled(kind, random)));
        list.extend((0..samples / 100).map(|_| sample(kind, random)));
    }
    list.iter().flat_map(Call::bytes).collect()
}

fn block(kind: Kind, drive: u32, input: Vec<u32>) -> Call {
    let places = input.len() as u32;
    Call::Block(Block {
        kind,
        drive,
        input,
        places,
    })
}

/// Forty places in each of the table's 255 cells and past both ends, with the border of each cell and
/// what lies next to it; and the two clamps of the hard kind.
fn sweeps() -> Vec<Call> {
    let cells = (-400..=10_600).map(|step: i32| (f64::from(step) / 510.0 - 10.0) as f32);
    let borders = (0..=255).flat_map(|i: i32| {
        let border = ((f64::from(i) * 20.0 / 255.0 - 10.0) as f32).to_bits();
        (-2..=2).map(move |steps| nudged(BINARY32, border.into(), steps) as u32)
    });
    let triode: Vec<u32> = cells.map(f32::to_bits).chain(borders).collect();
    let hard: Vec<u32> = (-520..=520)
        .map(|step| (step as f32 / 256.0).to_bits())
        .chain((-4..=4).flat_map(|steps| {
            [ONE, ONE | NEGATIVE].map(|one| nudged(BINARY32, one.into(), steps) as u32)
        }))
        .collect();
    let parts = |kind, samples: &[u32]| -> Vec<Call> {
        let parts = samples.chunks(4_096);
        parts.map(|part| block(kind, ONE, part.to_vec())).collect()
    };
    [parts(Kind::Triode, &triode), parts(Kind::Hard, &hard)]
        .into_iter()
        .flatten()
        .collect()
}

/// Samples of every size that is accepted, by each drive of either sign.
fn driven(kind: Kind) -> Vec<Call> {
    let sizes = [
        0,
        1,
        0x007f_ffff,
        0x0080_0000,
        0x3d4c_cccd,
        0x3f00_0000,
        ONE,
    ]
    .into_iter()
    .chain([0x4000_0000, 0x4120_0000, 0x427f_ffff, SIXTY_FOUR]);
    let input: Vec<u32> = sizes.flat_map(|size| [size, size | NEGATIVE]).collect();
    let drives = DRIVES.into_iter().flat_map(|size| [size, size | NEGATIVE]);
    drives
        .map(|drive| block(kind, drive, input.clone()))
        .collect()
}

/// Each refusal, and which comes first where two hold.
fn refused(kind: Kind) -> Vec<Call> {
    let good = |length: usize| vec![0x3f00_0000; length];
    let spoiled = |length: usize, at: usize, x: u32| {
        let mut input = good(length);
        input[at] = x;
        input
    };
    let mut calls = Vec::new();
    for drive in NOT_FINITE {
        calls.push(block(kind, drive, good(3)));
        calls.push(block(kind, drive, good(0)));
        calls.push(block(kind, drive, spoiled(3, 1, INFINITY)));
        calls.push(block(kind, drive, good(4_097)));
    }
    for x in NOT_FINITE
        .into_iter()
        .chain([SIXTY_FOUR + 1, (SIXTY_FOUR + 1) | NEGATIVE])
    {
        for at in [0, 1, 6] {
            calls.push(block(kind, ONE, spoiled(7, at, x)));
        }
        calls.push(block(kind, ONE, spoiled(4_096, 4_095, x)));
        calls.push(block(kind, ONE, spoiled(4_097, 0, x)));
    }
    for (length, places) in [
        (0, 1),
        (1, 0),
        (3, 2),
        (4_096, 4_097),
        (4_097, 4_096),
        (4_097, 0),
    ] {
        for drive in [ONE, INFINITY] {
            calls.push(Call::Block(Block {
                kind,
                drive,
                input: good(length),
                places,
            }));
        }
    }
    calls
}

/// Single samples: each pair of special values, then any bits.
fn singles(random: &mut Random) -> Vec<Call> {
    let values = specials(BINARY32);
    let mut calls = Vec::new();
    for kind in KINDS {
        for &x in &values {
            for &drive in &values {
                let (x, drive) = (x as u32, drive as u32);
                calls.push(Call::Sample { kind, drive, x });
            }
        }
        calls.extend((0..500).map(|_| sample(kind, random)));
    }
    calls
}

fn sample(kind: Kind, random: &mut Random) -> Call {
    let mut number = || match random.below(4) {
        0 => random.bits32(),
        1 => special(BINARY32, random) as u32,
        2 => {
            let exponent = exponent(BINARY32, random);
            normal(BINARY32, exponent, random) as u32
        }
        _ => {
            let exponent = random.between(-8, 4);
            normal(BINARY32, exponent, random) as u32
        }
    };
    let (drive, x) = (number(), number());
    Call::Sample { kind, drive, x }
}

/// A done block: a drive by what it tries, and samples that it brings into the table.
fn drawn(kind: Kind, length: usize, random: &mut Random) -> Call {
    let drive = match random.below(8) {
        0 => random.pick(&DRIVES) | random.pick(&[0, NEGATIVE]),
        1 => random.below(INFINITY.into()) as u32 | random.pick(&[0, NEGATIVE]),
        _ => {
            let exponent = random.between(-3, 5);
            normal(BINARY32, exponent, random) as u32
        }
    };
    block(kind, drive, heard(length, random))
}

/// Samples that are accepted: of the size of speech mostly, then faint, any up to 64, and at a border.
fn heard(length: usize, random: &mut Random) -> Vec<u32> {
    let sample = |random: &mut Random| match random.below(16) {
        0 => random.below(u64::from(SIXTY_FOUR) + 1) as u32 | random.pick(&[0, NEGATIVE]),
        1 => subnormal(BINARY32, random) as u32,
        2 => random.pick(&[0, NEGATIVE, ONE, SIXTY_FOUR, SIXTY_FOUR | NEGATIVE]),
        3..=8 => {
            let exponent = random.between(-12, 5);
            normal(BINARY32, exponent, random) as u32
        }
        _ => (random.between(-1 << 24, 1 << 24) as f32 * 4.0e-7).to_bits(),
    };
    (0..length).map(|_| sample(random)).collect()
}

/// A block that one of the four refusals or more can strike.
fn spoiled(kind: Kind, random: &mut Random) -> Call {
    let length = random.pick(&[1, 2, 3, 17, 4_096, 4_097]);
    let mut input = heard(length, random);
    if random.coin() {
        let at = random.below(length as u64) as usize;
        let above = SIXTY_FOUR + 1 + random.below(8) as u32;
        input[at] = random.pick(&[INFINITY, 0x7fc0_0000, 0xff80_0001, above, above | NEGATIVE]);
    }
    let drive = if random.below(3) == 0 {
        random.pick(&NOT_FINITE)
    } else {
        ONE
    };
    let places = match random.below(3) {
        0 => random.pick(&[0, 1, 4_096, 4_097]),
        _ => length as u32,
    };
    Call::Block(Block {
        kind,
        drive,
        input,
        places,
    })
}
