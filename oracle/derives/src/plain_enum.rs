//! Reads an enum whose variants hold nothing from its tokens.

use proc_macro::{TokenStream, TokenTree};

pub struct PlainEnum {
    pub name: String,
    pub repr: String,
    pub variants: Vec<String>,
}

impl PlainEnum {
    pub fn parse(item: TokenStream) -> Self {
        let mut repr = None;
        let mut tokens = item.into_iter();
        for token in tokens.by_ref() {
            match token {
                TokenTree::Group(attribute) => repr = repr_of(attribute.stream()).or(repr),
                TokenTree::Ident(word) if word.to_string() == "enum" => break,
                _ => {}
            }
        }
        let name = tokens.next().expect("an enum").to_string();
        let Some(TokenTree::Group(body)) = tokens.next() else {
            panic!("{name} is generic, or no enum");
        };
        Self {
            repr: repr.unwrap_or_else(|| panic!("{name} has no repr")),
            variants: variants_of(body.stream()),
            name,
        }
    }
}

/// The type of `repr(TYPE)`, where the attribute is one.
fn repr_of(attribute: TokenStream) -> Option<String> {
    let mut tokens = attribute.into_iter();
    match (tokens.next(), tokens.next()) {
        (Some(TokenTree::Ident(word)), Some(TokenTree::Group(of)))
            if word.to_string() == "repr" =>
        {
            Some(of.stream().to_string())
        }
        _ => None,
    }
}

/// The first word of each part between commas: attributes before it are a
/// punctuation mark and a group, a number of its own comes after it.
fn variants_of(body: TokenStream) -> Vec<String> {
    let mut variants = Vec::new();
    let mut named = false;
    for token in body {
        match token {
            TokenTree::Ident(word) if !named => {
                variants.push(word.to_string());
                named = true;
            }
            TokenTree::Punct(mark) if mark.as_char() == ',' => named = false,
            _ => {}
        }
    }
    variants
}
