//! `#[derive(RustcDecodable)]`, which rustc no longer has. JSON is left out of document 01, so the
//! derived function only has to compile.

use proc_macro::{TokenStream, TokenTree};

#[proc_macro_derive(RustcDecodable)]
pub fn derive_rustc_decodable(item: TokenStream) -> TokenStream {
    let mut tokens = item
        .into_iter()
        .skip_while(|t| !matches!(t, TokenTree::Ident(i) if i.to_string() == "struct"));
    let name = tokens.nth(1).expect("a struct's name");
    format!(
        "impl ::rustc_serialize::Decodable for {name} {{
            fn decode<D: ::rustc_serialize::Decoder>(_: &mut D) -> Result<Self, D::Error> {{
                unimplemented!(\"left out of document 01\")
            }}
        }}"
    )
    .parse()
    .unwrap()
}
