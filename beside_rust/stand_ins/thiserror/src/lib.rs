//! `#[derive(Error)]` for the enums of the Rust files: Display writes what Debug does, and each `#[from]` is a conversion.

use proc_macro::{Delimiter, TokenStream, TokenTree};

#[proc_macro_derive(Error, attributes(error, from))]
pub fn derive_error(item: TokenStream) -> TokenStream {
    let mut tokens = item.into_iter().skip_while(|token| token.to_string() != "enum").skip(1);
    let name = tokens.next().expect("the enum's name").to_string();
    let Some(TokenTree::Group(variants)) = tokens.next() else { panic!("an enum without generics") };
    let mut implementations = format!(
        "impl std::fmt::Display for {name} {{
            fn fmt(&self, f: &mut std::fmt::Formatter<'_>) -> std::fmt::Result {{
                std::fmt::Debug::fmt(self, f)
            }}
        }}
        impl std::error::Error for {name} {{}}"
    );
    let mut variant = String::new();
    for token in variants.stream() {
        match token {
            TokenTree::Ident(word) => variant = word.to_string(),
            TokenTree::Group(fields) if fields.delimiter() == Delimiter::Parenthesis => {
                if let Some(source) = from_type(fields.stream()) {
                    implementations += &format!(
                        "impl From<{source}> for {name} {{
                            fn from(source: {source}) -> Self {{
                                Self::{variant}(source)
                            }}
                        }}"
                    );
                }
            }
            _ => {}
        }
    }
    implementations.parse().expect("the implementations")
}

/// The type of a field that `#[from]` marks.
fn from_type(field: TokenStream) -> Option<TokenStream> {
    let mut tokens = field.into_iter();
    let marked = tokens.next()?.to_string() == "#" && tokens.next()?.to_string() == "[from]";
    marked.then(|| tokens.collect())
}
