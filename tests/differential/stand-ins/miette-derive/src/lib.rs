//! Stand-in for miette's derive macro: it accepts the attributes and adds nothing.
use proc_macro::TokenStream;

#[proc_macro_derive(Diagnostic, attributes(diagnostic, source_code, label))]
pub fn diagnostic(_: TokenStream) -> TokenStream {
    TokenStream::new()
}
