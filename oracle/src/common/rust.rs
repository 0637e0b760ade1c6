//! The Rust's follower and blocker, their numbers lent.
use super::{Part, rules::Numbers};
use crate::bits::{bits32, single};
use rustortion_core::amp::stages::common::{
    BlockerNumbers, DcBlocker, EnvelopeFollower, FollowerNumbers,
};

/// The numbers after a sample.
pub fn stepped(part: Part, state: Numbers, x: u64) -> Numbers {
    let numbers = state.map(single);
    match part {
        Part::Follower => followed(numbers, single(x)),
        Part::Blocker => blocked(numbers, single(x)),
    }
    .map(bits32)
}

fn followed([attack, release, level]: [f32; 3], x: f32) -> [f32; 3] {
    let mut follower = EnvelopeFollower::lent(FollowerNumbers {
        attack,
        release,
        level,
    });
    let output = follower.process(x);
    [attack, release, output]
}

fn blocked([c, x1, y1]: [f32; 3], x: f32) -> [f32; 3] {
    let mut blocker = DcBlocker::lent(BlockerNumbers { c, x1, y1 });
    let output = blocker.process(x);
    [c, blocker.numbers().x1, output]
}
