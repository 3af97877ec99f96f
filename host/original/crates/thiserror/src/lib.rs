//! The derive that the original's err.rs names, for a struct without generics.

use proc_macro::{TokenStream, TokenTree};

#[proc_macro_derive(Error)]
pub fn error(item: TokenStream) -> TokenStream {
    let mut tokens = item.into_iter();
    let is_struct = |t: &TokenTree| t.to_string() == "struct";
    tokens.by_ref().find(is_struct).expect("a struct");
    let name = tokens.next().expect("its name");
    format!("impl ::core::error::Error for {name} {{}}").parse().expect("an impl")
}
