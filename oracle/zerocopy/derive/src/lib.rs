//! Derives that declare the stub's traits for a type without parameters. The original's types are packed or have one byte.
extern crate proc_macro;

use proc_macro::{TokenStream, TokenTree};

/// The identifier behind `struct` or `enum`.
fn name_of(item: TokenStream) -> String {
    let mut tokens = item.into_iter();
    while let Some(token) = tokens.next() {
        if let TokenTree::Ident(word) = &token {
            let word = word.to_string();
            if word == "struct" || word == "enum" {
                return tokens.next().expect("a type has a name").to_string();
            }
        }
    }
    panic!("neither a struct nor an enum");
}

fn declare(head: &str, item: TokenStream) -> TokenStream {
    format!("{head} for {} {{}}", name_of(item)).parse().expect("an empty impl parses")
}

#[proc_macro_derive(IntoBytes)]
pub fn into_bytes(item: TokenStream) -> TokenStream {
    declare("unsafe impl ::zerocopy::IntoBytes", item)
}

#[proc_macro_derive(Immutable)]
pub fn immutable(item: TokenStream) -> TokenStream {
    declare("impl ::zerocopy::Immutable", item)
}

#[proc_macro_derive(FromBytes)]
pub fn from_bytes(item: TokenStream) -> TokenStream {
    declare("impl ::zerocopy::FromBytes", item)
}
