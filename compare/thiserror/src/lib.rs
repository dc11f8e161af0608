//! Stand-in for the derive of thiserror: Display is Debug, the texts in `#[error(..)]` are dropped.

use proc_macro::{TokenStream, TokenTree};

#[proc_macro_derive(Error, attributes(error))]
pub fn error(item: TokenStream) -> TokenStream {
    let mut tokens = item.into_iter();
    tokens
        .by_ref()
        .find(
            |token| matches!(token, TokenTree::Ident(word) if ["enum", "struct"].contains(&word.to_string().as_str())),
        )
        .expect("an enum or a struct");
    let name = tokens.next().expect("a name");
    format!(
        "impl core::error::Error for {name} {{}}
         impl core::fmt::Display for {name} {{
             fn fmt(&self, to: &mut core::fmt::Formatter<'_>) -> core::fmt::Result {{
                 core::fmt::Debug::fmt(self, to)
             }}
         }}"
    )
    .parse()
    .expect("two impls")
}
