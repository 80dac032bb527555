//! A stand-in: `IntoBytes` is derived, the others are nothing.
use proc_macro::{TokenStream, TokenTree};
fn name(input: TokenStream) -> String {
    let mut it = input.into_iter();
    while let Some(t) = it.next() {
        if let TokenTree::Ident(i) = &t {
            let s = i.to_string();
            if s == "struct" || s == "enum" {
                if let Some(TokenTree::Ident(n)) = it.next() {
                    return n.to_string();
                }
            }
        }
    }
    panic!("no name")
}
#[proc_macro_derive(IntoBytes)]
pub fn into_bytes(i: TokenStream) -> TokenStream {
    format!("impl ::zerocopy::IntoBytes for {} {{}}", name(i))
        .parse()
        .unwrap()
}
macro_rules! nothing { ($($n:ident $f:ident),*) => { $( #[proc_macro_derive($n)] pub fn $f(_: TokenStream) -> TokenStream { TokenStream::new() } )* } }
nothing!(FromBytes from_bytes, FromZeros from_zeros, Immutable immutable, KnownLayout known_layout, TryFromBytes try_from_bytes);
