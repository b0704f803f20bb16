//! The two derives of the `bytemuck` stand-in. Each gives an empty impl of the mark of the
//! same name.

use proc_macro::{TokenStream, TokenTree};

/// The word after `struct`.
fn struct_name(item: TokenStream) -> String {
    let mut words = item.into_iter().filter_map(|token| match token {
        TokenTree::Ident(word) => Some(word.to_string()),
        _ => None,
    });
    words
        .by_ref()
        .find(|word| word == "struct")
        .and_then(|_| words.next())
        .expect("the derive stands on a struct")
}

fn empty_impl(mark: &str, item: TokenStream) -> TokenStream {
    format!("impl ::bytemuck::{mark} for {} {{}}", struct_name(item))
        .parse()
        .expect("an empty impl")
}

/// `impl Pod`, empty.
#[proc_macro_derive(Pod)]
pub fn pod(item: TokenStream) -> TokenStream {
    empty_impl("Pod", item)
}

/// `impl Zeroable`, empty.
#[proc_macro_derive(Zeroable)]
pub fn zeroable(item: TokenStream) -> TokenStream {
    empty_impl("Zeroable", item)
}
