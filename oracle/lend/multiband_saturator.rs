// Lends to `multiband_saturator.rs`: the crossovers' numbers, the followers' and the blockers', and the
// registers, read and set.
use crate::amp::stages::common::{BlockerNumbers, FollowerNumbers};

/// The worked numbers of one filter: b0, b1, b2, a1, a2.
pub type FilterNumbers = [f32; 5];

/// The registers of one filter: x1, x2, y1, y2 of its first half, then of its second.
pub type FilterRegisters = [f32; 8];

/// The low-pass and the high-pass numbers of one crossover frequency.
#[derive(Clone, Copy, Debug, PartialEq)]
pub struct CrossoverNumbers {
    pub low_pass: FilterNumbers,
    pub high_pass: FilterNumbers,
}

/// The numbers of the followers and the blockers, which the three bands share.
#[derive(Clone, Copy, Debug, PartialEq)]
pub struct DynamicsNumbers {
    pub attack: f32,
    pub release: f32,
    pub blocker: f32,
}

/// What a sample moves. The filters stand in the order of the struct's fields: low's, mid's two,
/// high's, and the two that hold low's phase; levels, x1 and y1 are low's, mid's and high's.
#[derive(Clone, Copy, Debug, PartialEq)]
pub struct SaturatorRegisters {
    pub filters: [FilterRegisters; 6],
    pub levels: [f32; 3],
    pub x1: [f32; 3],
    pub y1: [f32; 3],
}

impl LR4Filter {
    fn lend(&mut self, numbers: FilterNumbers) {
        [self.b0, self.b1, self.b2, self.a1, self.a2] = numbers;
    }

    fn numbers(&self) -> FilterNumbers {
        [self.b0, self.b1, self.b2, self.a1, self.a2]
    }

    fn registers(&self) -> FilterRegisters {
        [
            self.x1_1, self.x2_1, self.y1_1, self.y2_1, self.x1_2, self.x2_2, self.y1_2, self.y2_2,
        ]
    }

    fn load(&mut self, registers: FilterRegisters) {
        [
            self.x1_1, self.x2_1, self.y1_1, self.y2_1, self.x1_2, self.x2_2, self.y1_2, self.y2_2,
        ] = registers;
    }
}

impl MultibandSaturatorStage {
    pub fn lend_low(&mut self, numbers: CrossoverNumbers) {
        self.low_lp.lend(numbers.low_pass);
        self.mid_hp_low.lend(numbers.high_pass);
    }

    pub fn lend_high(&mut self, numbers: CrossoverNumbers) {
        self.mid_lp_high.lend(numbers.low_pass);
        self.low_allpass_lp.lend(numbers.low_pass);
        self.high_hp.lend(numbers.high_pass);
        self.low_allpass_hp.lend(numbers.high_pass);
    }

    pub fn low(&self) -> CrossoverNumbers {
        CrossoverNumbers {
            low_pass: self.low_lp.numbers(),
            high_pass: self.mid_hp_low.numbers(),
        }
    }

    pub fn high(&self) -> CrossoverNumbers {
        CrossoverNumbers {
            low_pass: self.mid_lp_high.numbers(),
            high_pass: self.high_hp.numbers(),
        }
    }

    pub fn lend_dynamics(&mut self, numbers: DynamicsNumbers) {
        for follower in self.followers_mut() {
            *follower = EnvelopeFollower::lent(FollowerNumbers {
                attack: numbers.attack,
                release: numbers.release,
                ..follower.numbers()
            });
        }
        for blocker in self.blockers_mut() {
            *blocker = DcBlocker::lent(BlockerNumbers {
                c: numbers.blocker,
                ..blocker.numbers()
            });
        }
    }

    pub fn registers(&self) -> SaturatorRegisters {
        let blockers = [&self.low_dc, &self.mid_dc, &self.high_dc].map(DcBlocker::numbers);
        SaturatorRegisters {
            filters: [
                &self.low_lp,
                &self.mid_hp_low,
                &self.mid_lp_high,
                &self.high_hp,
                &self.low_allpass_lp,
                &self.low_allpass_hp,
            ]
            .map(LR4Filter::registers),
            levels: [&self.low_env, &self.mid_env, &self.high_env].map(EnvelopeFollower::value),
            x1: blockers.map(|numbers| numbers.x1),
            y1: blockers.map(|numbers| numbers.y1),
        }
    }

    pub fn load(&mut self, registers: SaturatorRegisters) {
        for (filter, values) in self.filters_mut().into_iter().zip(registers.filters) {
            filter.load(values);
        }
        for (follower, level) in self.followers_mut().into_iter().zip(registers.levels) {
            *follower = EnvelopeFollower::lent(FollowerNumbers {
                level,
                ..follower.numbers()
            });
        }
        let values = registers.x1.into_iter().zip(registers.y1);
        for (blocker, (x1, y1)) in self.blockers_mut().into_iter().zip(values) {
            let c = blocker.numbers().c;
            *blocker = DcBlocker::lent(BlockerNumbers { c, x1, y1 });
        }
    }

    fn filters_mut(&mut self) -> [&mut LR4Filter; 6] {
        [
            &mut self.low_lp,
            &mut self.mid_hp_low,
            &mut self.mid_lp_high,
            &mut self.high_hp,
            &mut self.low_allpass_lp,
            &mut self.low_allpass_hp,
        ]
    }

    fn followers_mut(&mut self) -> [&mut EnvelopeFollower; 3] {
        [&mut self.low_env, &mut self.mid_env, &mut self.high_env]
    }

    fn blockers_mut(&mut self) -> [&mut DcBlocker; 3] {
        [&mut self.low_dc, &mut self.mid_dc, &mut self.high_dc]
    }
}
