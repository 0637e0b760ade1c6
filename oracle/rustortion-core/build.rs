//! Writes the trait `Stage` for `src/lib.rs` to take in: the text of `stages/mod.rs` without its
//! `pub mod` lines, which name files that are not among the papers.
use std::{env, error::Error, fs, path::Path};

const MODULE: &str = "../../docs/src/rustortion-core/src/amp/stages/mod.rs";

fn main() -> Result<(), Box<dyn Error>> {
    println!("cargo::rerun-if-changed={MODULE}");
    let text = fs::read_to_string(MODULE)?;
    let without: Vec<&str> = text
        .lines()
        .filter(|line| !line.starts_with("pub mod "))
        .collect();
    let out = env::var("OUT_DIR")?;
    fs::write(Path::new(&out).join("stage.rs"), without.join("\n"))?;
    Ok(())
}
