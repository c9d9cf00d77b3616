//! `derive(Pod, Zeroable)` for a struct without parameters. The real derives also check the
//! fields; here the one user is `Block`, a transparent `u8x16`.
use proc_macro::{TokenStream, TokenTree};

fn name(item: TokenStream) -> String {
    let mut tokens = item.into_iter();
    while let Some(token) = tokens.next() {
        if let TokenTree::Ident(word) = &token
            && word.to_string() == "struct"
        {
            return tokens.next().expect("a name after struct").to_string();
        }
    }
    panic!("not a struct")
}

#[proc_macro_derive(Pod)]
pub fn pod(item: TokenStream) -> TokenStream {
    format!("unsafe impl ::bytemuck::Pod for {} {{}}", name(item))
        .parse()
        .unwrap()
}

#[proc_macro_derive(Zeroable)]
pub fn zeroable(item: TokenStream) -> TokenStream {
    format!("unsafe impl ::bytemuck::Zeroable for {} {{}}", name(item))
        .parse()
        .unwrap()
}
