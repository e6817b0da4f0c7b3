//! Stands in for `strum`: `FromRepr` of an enum with no values and no numbers of its own.
use proc_macro::{TokenStream, TokenTree};

#[proc_macro_derive(FromRepr)]
pub fn from_repr(item: TokenStream) -> TokenStream {
    let tokens: Vec<TokenTree> = item.into_iter().collect();
    let at = tokens.iter().position(|t| t.to_string() == "enum").expect("an enum");
    let name = &tokens[at + 1];
    let TokenTree::Group(body) = &tokens[at + 2] else {
        panic!("an enum with a body");
    };
    let variants = body.stream().into_iter().filter(|t| matches!(t, TokenTree::Ident(_)));
    let arms: String = variants.enumerate().map(|(i, v)| format!("{i} => Some(Self::{v}),")).collect();
    format!(
        "impl {name} {{
            pub(crate) const fn from_repr(number: u32) -> Option<Self> {{
                match number {{ {arms} _ => None }}
            }}
        }}"
    )
    .parse()
    .expect("an impl")
}
