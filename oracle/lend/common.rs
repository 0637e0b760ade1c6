// Lends to `common.rs`: a follower's and a blocker's numbers, read and set.

/// A follower's numbers: the two that are worked out, and its register.
#[derive(Clone, Copy)]
pub struct FollowerNumbers {
    pub attack: f32,
    pub release: f32,
    pub level: f32,
}

impl EnvelopeFollower {
    pub fn lent(numbers: FollowerNumbers) -> Self {
        Self {
            envelope: numbers.level,
            attack_coeff: numbers.attack,
            release_coeff: numbers.release,
        }
    }

    pub fn numbers(&self) -> FollowerNumbers {
        FollowerNumbers {
            attack: self.attack_coeff,
            release: self.release_coeff,
            level: self.envelope,
        }
    }
}

/// A blocker's numbers: the one that is worked out, and its registers.
#[derive(Clone, Copy)]
pub struct BlockerNumbers {
    pub c: f32,
    pub x1: f32,
    pub y1: f32,
}

impl DcBlocker {
    pub fn lent(numbers: BlockerNumbers) -> Self {
        Self {
            x_prev: numbers.x1,
            y_prev: numbers.y1,
            coeff: numbers.c,
        }
    }

    pub fn numbers(&self) -> BlockerNumbers {
        BlockerNumbers {
            c: self.coeff,
            x1: self.x_prev,
            y1: self.y_prev,
        }
    }
}
