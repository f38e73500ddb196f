//! A stand-in for `thiserror` 2, where no registry is reached: its derive for enums whose variants are units, have named
//! fields, or hold one error behind `#[from]`.
#![forbid(unsafe_code)]

use proc_macro::{Delimiter, TokenStream, TokenTree};

/// Implements `Display` by the texts of `#[error(..)]`, `Error` with its source, and `From` of what is held.
#[proc_macro_derive(Error, attributes(error, from))]
pub fn derive_error(input: TokenStream) -> TokenStream {
    let tokens: Vec<TokenTree> = input.into_iter().collect();
    let head = tokens.iter().position(|token| token.to_string() == "enum").expect("an enum");
    let name = tokens[head + 1].to_string();
    let Some(TokenTree::Group(body)) = tokens.last() else { panic!("an enum has variants") };
    let (mut texts, mut sources, mut froms) = (String::new(), String::new(), String::new());
    let mut said = String::new();
    let mut tokens = body.stream().into_iter().peekable();
    while let Some(token) = tokens.next() {
        match token {
            TokenTree::Group(attribute) if attribute.to_string().starts_with("[error") => {
                said = inner(attribute.stream());
            }
            TokenTree::Ident(variant) => match tokens.next_if(|token| matches!(token, TokenTree::Group(_))) {
                None => texts += &format!("Self::{variant} => ::core::write!(f, {said}),"),
                Some(TokenTree::Group(fields)) if fields.delimiter() == Delimiter::Brace => {
                    let names = names(fields.stream()).join(", ");
                    texts += &format!("Self::{variant} {{ {names} }} => ::core::write!(f, {said}),");
                }
                Some(held) => {
                    // `(#[from] TYPE)`
                    let TokenTree::Group(held) = held else { unreachable!("it is a group") };
                    let held: TokenStream = held.stream().into_iter().skip(2).collect();
                    texts += &format!("Self::{variant}(held) => ::core::write!(f, {said}, held),");
                    sources += &format!("Self::{variant}(held) => ::core::option::Option::Some(held),");
                    froms += &format!(
                        "impl ::core::convert::From<{held}> for {name} {{
                            fn from(held: {held}) -> Self {{ Self::{variant}(held) }}
                        }}"
                    );
                }
            },
            _ => {}
        }
    }
    format!(
        "impl ::core::fmt::Display for {name} {{
            fn fmt(&self, f: &mut ::core::fmt::Formatter<'_>) -> ::core::fmt::Result {{
                match self {{ {texts} }}
            }}
        }}

        impl ::core::error::Error for {name} {{
            fn source(&self) -> ::core::option::Option<&(dyn ::core::error::Error + 'static)> {{
                match self {{ {sources} _ => ::core::option::Option::None }}
            }}
        }}

        {froms}"
    )
    .parse()
    .expect("Rust")
}

/// What stands between the brackets of `error(..)`.
fn inner(attribute: TokenStream) -> String {
    match attribute.into_iter().nth(1) {
        Some(TokenTree::Group(text)) => text.stream().to_string(),
        _ => panic!("`error` has a text"),
    }
}

/// The names of fields: each stands ahead of a colon.
fn names(fields: TokenStream) -> Vec<String> {
    let tokens: Vec<TokenTree> = fields.into_iter().collect();
    let pairs = tokens.windows(2).filter(|pair| pair[1].to_string() == ":");
    pairs.map(|pair| pair[0].to_string()).collect()
}
