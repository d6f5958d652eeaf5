//! Stand-in for the derive of gc_arena's `Collect`: nothing is ever collected.
use proc_macro::TokenStream;

#[proc_macro_derive(Collect, attributes(collect))]
pub fn collect(_: TokenStream) -> TokenStream {
    TokenStream::new()
}
