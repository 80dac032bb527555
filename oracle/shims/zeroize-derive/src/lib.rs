//! A stand-in: nothing is wiped.
use proc_macro::TokenStream;
#[proc_macro_derive(Zeroize)]
pub fn zeroize(_: TokenStream) -> TokenStream {
    TokenStream::new()
}
