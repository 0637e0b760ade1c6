// Lends to `eq.rs`: a band's five numbers and its registers, read and set, and how a name is read.

/// A band's worked numbers.
#[derive(Clone, Copy, Debug, PartialEq)]
pub struct BandNumbers {
    pub b0: f64,
    pub b1: f64,
    pub b2: f64,
    pub a1: f64,
    pub a2: f64,
}

/// What a sample moves in a band.
#[derive(Clone, Copy, Debug, PartialEq)]
pub struct BandRegisters {
    pub x1: f64,
    pub x2: f64,
    pub y1: f64,
    pub y2: f64,
}

impl EqStage {
    pub fn lend_band(&mut self, index: usize, numbers: BandNumbers) {
        let band = &mut self.biquads[index];
        band.b0 = numbers.b0;
        band.b1 = numbers.b1;
        band.b2 = numbers.b2;
        band.a1 = numbers.a1;
        band.a2 = numbers.a2;
    }

    pub fn band(&self, index: usize) -> BandNumbers {
        let band = &self.biquads[index];
        BandNumbers {
            b0: band.b0,
            b1: band.b1,
            b2: band.b2,
            a1: band.a1,
            a2: band.a2,
        }
    }

    pub fn registers(&self, index: usize) -> BandRegisters {
        let band = &self.biquads[index];
        BandRegisters {
            x1: band.x1,
            x2: band.x2,
            y1: band.y1,
            y2: band.y2,
        }
    }

    pub fn load(&mut self, index: usize, registers: BandRegisters) {
        let band = &mut self.biquads[index];
        band.x1 = registers.x1;
        band.x2 = registers.x2;
        band.y1 = registers.y1;
        band.y2 = registers.y2;
    }

    /// The band index that the Rust reads from a setting's name.
    pub fn index_of(name: &str) -> Option<usize> {
        Self::parse_band_index(name)
    }
}
