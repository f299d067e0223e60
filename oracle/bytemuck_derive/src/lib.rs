//! Stand-in for the derives of bytemuck. Each writes an empty `unsafe impl` for the name behind the
//! word `struct`. The types that use them are packed structs of plain integers, for which the
//! promise of the two traits holds; unlike the real derives, these do not check it.

use proc_macro::{TokenStream, TokenTree};

fn name_of(input: TokenStream) -> String {
    let mut after_struct = false;
    for tree in input {
        if let TokenTree::Ident(ident) = tree {
            if after_struct {
                return ident.to_string();
            }
            after_struct = ident.to_string() == "struct";
        }
    }
    panic!("only a struct can be derived");
}

fn marked(name: &str, input: TokenStream) -> TokenStream {
    let text = format!("unsafe impl ::bytemuck::{name} for {} {{}}", name_of(input));
    text.parse().expect("an empty impl parses")
}

#[proc_macro_derive(Pod)]
pub fn pod(input: TokenStream) -> TokenStream {
    marked("Pod", input)
}

#[proc_macro_derive(Zeroable)]
pub fn zeroable(input: TokenStream) -> TokenStream {
    marked("Zeroable", input)
}
