//! Stand-in for clap: the one derive that the original names does nothing here.
use proc_macro::TokenStream;

#[proc_macro_derive(ValueEnum, attributes(value, clap))]
pub fn value_enum(_: TokenStream) -> TokenStream {
    TokenStream::new()
}
