// Lends to `tonestack.rs`: the registers, read and set. The presence factor is a local of `process`,
// worked out by `powf`: it is lent there (`src/power.rs`).

/// What a sample moves.
#[derive(Clone, Copy, Debug, PartialEq)]
pub struct ToneRegisters {
    pub dc: f32,
    pub bass: f32,
    pub treble: f32,
    pub presence: f32,
}

impl ToneStackStage {
    pub fn registers(&self) -> ToneRegisters {
        ToneRegisters {
            dc: self.dc_hp,
            bass: self.bass_lp,
            treble: self.treble_lp,
            presence: self.presence_lp,
        }
    }

    pub fn load(&mut self, registers: ToneRegisters) {
        self.dc_hp = registers.dc;
        self.bass_lp = registers.bass;
        self.treble_lp = registers.treble;
        self.presence_lp = registers.presence;
    }
}
