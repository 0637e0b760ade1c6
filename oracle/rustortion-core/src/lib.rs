//! The Rust stages, compiled as they stand: each file of `docs/src` is taken in by `include!`, inside
//! a module of its own name, so that the paths it uses hold. Behind a stage that is compared stands
//! its file of `lend/`: more `impl` blocks, which hand worked numbers in and read registers out.
#![allow(dead_code, unused_imports, clippy::all)]

macro_rules! original {
    ($file:literal) => {
        include!(concat!(
            "../../../docs/src/rustortion-core/src/amp/stages/",
            $file
        ));
    };
}

macro_rules! lent {
    ($file:literal) => {
        include!(concat!("../../lend/", $file));
    };
}

pub mod amp {
    pub mod stages {
        include!(concat!(env!("OUT_DIR"), "/stage.rs"));

        pub mod clipper {
            original!("clipper.rs");
            lent!("clipper.rs");
        }

        pub mod common {
            original!("common.rs");
            lent!("common.rs");
        }

        pub mod compressor {
            original!("compressor.rs");
            lent!("compressor.rs");
        }

        pub mod eq {
            original!("eq.rs");
            lent!("eq.rs");
        }

        pub mod filter {
            original!("filter.rs");
        }

        pub mod multiband_saturator {
            original!("multiband_saturator.rs");
            lent!("multiband_saturator.rs");
        }

        pub mod noise_gate {
            original!("noise_gate.rs");
            lent!("noise_gate.rs");
        }

        pub mod poweramp {
            original!("poweramp.rs");
        }

        pub mod preamp {
            original!("preamp.rs");
        }

        pub mod tonestack {
            original!("tonestack.rs");
            lent!("tonestack.rs");
        }
    }
}
