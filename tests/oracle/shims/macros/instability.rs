//! Stands in for `instability`: it marks what is unstable, and the item stays as it is.
use proc_macro::TokenStream;

#[proc_macro_attribute]
pub fn unstable(_args: TokenStream, item: TokenStream) -> TokenStream {
    item
}
