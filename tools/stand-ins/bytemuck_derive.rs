//! Derives of `Pod` and `Zeroable`: an empty impl for the struct that follows.
extern crate proc_macro;
use proc_macro::{TokenStream, TokenTree};

/// The name after the word `struct`.
fn name_of(item: TokenStream) -> String {
    let mut words = item.into_iter().filter_map(|t| match t {
        TokenTree::Ident(i) => Some(i.to_string()),
        _ => None,
    });
    words.find(|w| w == "struct").expect("a struct");
    words.next().expect("a name")
}

fn empty_impl(of: &str, item: TokenStream) -> TokenStream {
    format!("unsafe impl ::bytemuck::{of} for {} {{}}", name_of(item))
        .parse()
        .expect("an impl")
}

#[proc_macro_derive(Pod)]
pub fn pod(item: TokenStream) -> TokenStream {
    empty_impl("Pod", item)
}

#[proc_macro_derive(Zeroable)]
pub fn zeroable(item: TokenStream) -> TokenStream {
    empty_impl("Zeroable", item)
}
