//! Stand-in for `tracing`: the attribute is accepted and leaves its function as it stands.

use proc_macro::TokenStream;

#[proc_macro_attribute]
pub fn instrument(_arguments: TokenStream, item: TokenStream) -> TokenStream {
    item
}
