//! Stands in for esp-hal's `procmacros`: documentation only, so the item stays as it is.
use proc_macro::TokenStream;

#[proc_macro_attribute]
pub fn doc_replace(_args: TokenStream, item: TokenStream) -> TokenStream {
    item
}
