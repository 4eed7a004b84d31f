//! Stand-in for `thiserror`: of the derive only what the crate leans on, the `From` conversions
//! of the variants whose one field is marked `#[from]`. The wording of an error is not built:
//! refusals are numbers here.

use proc_macro::{Delimiter, TokenStream, TokenTree};

#[proc_macro_derive(Error, attributes(error, from))]
pub fn error(item: TokenStream) -> TokenStream {
    let tokens: Vec<TokenTree> = item.into_iter().collect();
    let place = tokens
        .iter()
        .position(|token| matches!(token, TokenTree::Ident(word) if word.to_string() == "enum"))
        .expect("this stand-in derives Error for enums alone");
    let name = tokens[place + 1].to_string();
    let body = match tokens.last() {
        Some(TokenTree::Group(group)) if group.delimiter() == Delimiter::Brace => group.stream(),
        _ => panic!("an enum ends with its variants"),
    };
    let written: String = variants_from(body)
        .into_iter()
        .map(|(variant, inner)| {
            format!(
                "impl ::core::convert::From<{inner}> for {name} {{ \
                   fn from(inner: {inner}) -> Self {{ Self::{variant}(inner) }} }}"
            )
        })
        .collect();
    written.parse().expect("the conversions are Rust")
}

/// The variants with one `#[from]` field: their names with the field's type.
fn variants_from(body: TokenStream) -> Vec<(String, String)> {
    let mut found = Vec::new();
    let mut name = String::new();
    for token in body {
        match token {
            TokenTree::Ident(word) => name = word.to_string(),
            TokenTree::Group(group) if group.delimiter() == Delimiter::Parenthesis => {
                if let Some(inner) = from_field(group.stream()) {
                    found.push((name.clone(), inner));
                }
            }
            _ => {}
        }
    }
    found
}

/// The type after `#[from]`, if the field is so marked.
fn from_field(field: TokenStream) -> Option<String> {
    let mut tokens = field.into_iter();
    match tokens.next() {
        Some(TokenTree::Punct(mark)) if mark.as_char() == '#' => {}
        _ => return None,
    }
    match tokens.next() {
        Some(TokenTree::Group(group)) if group.to_string() == "[from]" => {}
        _ => return None,
    }
    Some(tokens.collect::<TokenStream>().to_string())
}
