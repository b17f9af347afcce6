//! A derive of `Error` for enums whose variants have an `#[error(".. {field} ..")]`, which stands for that of thiserror.
#![forbid(unsafe_code)]

use proc_macro::{Delimiter, TokenStream, TokenTree};

/// Derives `Display`, by the text of each variant, and `Error`.
#[proc_macro_derive(Error, attributes(error))]
pub fn derive_error(item: TokenStream) -> TokenStream {
    let written = match enum_of(item) {
        Some((name, arms)) => format!(
            "#[automatically_derived]
            impl ::core::fmt::Display for {name} {{
                #[allow(unused_variables)]
                fn fmt(&self, f: &mut ::core::fmt::Formatter<'_>) -> ::core::fmt::Result {{
                    match self {{ {arms} }}
                }}
            }}
            #[automatically_derived]
            impl ::core::error::Error for {name} {{}}"
        ),
        None => "::core::compile_error!(\"an enum is wanted here, each variant with an #[error(..)]\");".to_owned(),
    };
    written.parse().unwrap_or_default()
}

/// The name of an enum, and an arm for each of its variants.
fn enum_of(item: TokenStream) -> Option<(String, String)> {
    let tokens: Vec<TokenTree> = item.into_iter().collect();
    let at = tokens.iter().position(|token| token.to_string() == "enum")?;
    let name = tokens.get(at + 1)?.to_string();
    match tokens.get(at + 2)? {
        TokenTree::Group(body) => Some((name, arms(body.stream())?)),
        _ => None,
    }
}

fn arms(body: TokenStream) -> Option<String> {
    let mut arms = String::new();
    let mut text = None;
    let mut tokens = body.into_iter().peekable();
    while let Some(token) = tokens.next() {
        match token {
            TokenTree::Punct(mark) if mark.as_char() == '#' => text = text_of(&tokens.next()?).or(text),
            TokenTree::Ident(variant) => {
                let fields = match tokens.peek() {
                    Some(TokenTree::Group(fields)) => pattern(fields.delimiter(), fields.stream())?,
                    _ => String::new(),
                };
                arms += &format!("Self::{variant} {fields} => ::core::write!(f, {}),", text.take()?);
            }
            _ => {}
        }
    }
    Some(arms)
}

/// The text of an `[error("..")]`.
fn text_of(attribute: &TokenTree) -> Option<String> {
    let TokenTree::Group(attribute) = attribute else {
        return None;
    };
    let mut tokens = attribute.stream().into_iter();
    match (tokens.next()?, tokens.next()?) {
        (TokenTree::Ident(name), TokenTree::Group(text)) if name.to_string() == "error" => Some(text.stream().to_string()),
        _ => None,
    }
}

/// A pattern that binds the fields by their names.
fn pattern(delimiter: Delimiter, fields: TokenStream) -> Option<String> {
    if delimiter == Delimiter::Parenthesis {
        return Some("(..)".to_owned());
    }
    let tokens: Vec<String> = fields.into_iter().map(|token| token.to_string()).collect();
    let names = tokens.windows(2).enumerate().filter(|(at, pair)| {
        pair[1] == ":" && (*at == 0 || tokens[at - 1] == "," || tokens[at - 1].starts_with('['))
    });
    let names: Vec<&str> = names.map(|(_, pair)| pair[0].as_str()).collect();
    Some(format!("{{ {} }}", names.join(", ")))
}
