//! Stand-in for the crate `thiserror`: `Display`, `Error` and `From` for an enum whose variants hold one field each.

extern crate proc_macro;

use proc_macro::{Delimiter, TokenStream, TokenTree};

#[proc_macro_derive(Error, attributes(error, from))]
pub fn derive_error(input: TokenStream) -> TokenStream {
    let mut tokens = input.into_iter();
    let mut name = String::new();
    let mut body = None;
    while let Some(token) = tokens.next() {
        match token {
            TokenTree::Ident(word) if word.to_string() == "enum" => {
                name = tokens.next().expect("a name").to_string();
            }
            TokenTree::Group(group) if group.delimiter() == Delimiter::Brace => {
                body = Some(group.stream());
            }
            _ => {}
        }
    }

    let (mut shown, mut from) = (String::new(), String::new());
    let mut text = String::new();
    let mut variant = String::new();
    for token in body.expect("variants") {
        match token {
            // `#[error("text")]`, or a comment as an attribute
            TokenTree::Group(group) if group.delimiter() == Delimiter::Bracket => {
                let mut inner = group.stream().into_iter();
                if inner.next().is_some_and(|t| t.to_string() == "error") {
                    let TokenTree::Group(argument) = inner.next().expect("a text") else {
                        panic!("a text in brackets");
                    };
                    text = argument.stream().to_string();
                }
            }
            TokenTree::Ident(word) => variant = word.to_string(),
            // `(Type)` or `(#[from] Type)`
            TokenTree::Group(group) if group.delimiter() == Delimiter::Parenthesis => {
                shown += &format!("{name}::{variant}(held) => write!(f, {text}, held),");
                let field = group.stream().to_string().replace(' ', "");
                if let Some(source) = field.strip_prefix("#[from]") {
                    from += &format!(
                        "impl From<{source}> for {name} {{
                            fn from(held: {source}) -> Self {{ {name}::{variant}(held) }}
                        }}"
                    );
                }
            }
            _ => {}
        }
    }
    format!(
        "impl std::fmt::Display for {name} {{
            fn fmt(&self, f: &mut std::fmt::Formatter<'_>) -> std::fmt::Result {{
                match self {{ {shown} }}
            }}
        }}
        impl std::error::Error for {name} {{}}
        {from}"
    )
    .parse()
    .expect("code of the traits")
}
