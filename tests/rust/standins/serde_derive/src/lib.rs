//! Stand-in: the derive is accepted and makes nothing.

use proc_macro::TokenStream;

#[proc_macro_derive(Deserialize, attributes(serde))]
pub fn deserialize(_input: TokenStream) -> TokenStream {
    TokenStream::new()
}
