// Lends to `clipper.rs`: the triode's table, as the Rust works it out.

pub fn triode_table() -> [f32; 256] {
    TRIODE_TABLE.table
}
