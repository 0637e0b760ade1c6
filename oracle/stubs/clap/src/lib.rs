//! Stands in for `clap`: a derive that adds nothing, enough for the stage files to compile.
use proc_macro::TokenStream;

#[proc_macro_derive(ValueEnum)]
pub fn value_enum(_item: TokenStream) -> TokenStream {
    TokenStream::new()
}
