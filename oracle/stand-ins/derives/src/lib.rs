//! The derive macros that the original's text names, for the crates `allocative`, `dupe`,
//! `starlark_derive` and `thiserror`. Two of them do something that resolving needs; the
//! others are about memory, serialising and spans, and derive nothing.

use proc_macro::Delimiter;
use proc_macro::TokenStream;
use proc_macro::TokenTree;

#[proc_macro_derive(Allocative)]
pub fn allocative(_item: TokenStream) -> TokenStream {
    TokenStream::new()
}

#[proc_macro_derive(StarlarkPagable)]
pub fn starlark_pagable(_item: TokenStream) -> TokenStream {
    TokenStream::new()
}

#[proc_macro_derive(VisitSpanMut)]
pub fn visit_span_mut(_item: TokenStream) -> TokenStream {
    TokenStream::new()
}

/// `dupe::Dupe`, for a type without parameters.
#[proc_macro_derive(Dupe)]
pub fn dupe(item: TokenStream) -> TokenStream {
    let name = type_name(item);
    format!("impl ::dupe::Dupe for {name} {{}}")
        .parse()
        .unwrap()
}

/// `thiserror::Error`, for an enum whose every variant is `#[error("..")] Variant(Type, ..)`.
#[proc_macro_derive(Error, attributes(error))]
pub fn error(item: TokenStream) -> TokenStream {
    let name = type_name(item.clone());
    let Some(TokenTree::Group(variants)) = item.into_iter().last() else {
        panic!("an enum ends in its variants");
    };
    let mut message = String::new();
    let mut variant = String::new();
    let mut arms = String::new();
    for token in variants.stream() {
        match token {
            TokenTree::Ident(ident) => variant = ident.to_string(),
            TokenTree::Group(attribute) if attribute.delimiter() == Delimiter::Bracket => {
                message = error_message(attribute.stream());
            }
            TokenTree::Group(types) => {
                let fields = fields(types.stream());
                arms += &format!("Self::{variant}({fields}) => write!(f, {message}, {fields}),");
            }
            TokenTree::Punct(_) | TokenTree::Literal(_) => {}
        }
    }
    format!(
        "impl ::std::error::Error for {name} {{}}
         impl ::std::fmt::Display for {name} {{
             fn fmt(&self, f: &mut ::std::fmt::Formatter<'_>) -> ::std::fmt::Result {{
                 match self {{ {arms} }}
             }}
         }}"
    )
    .parse()
    .unwrap()
}

/// The identifier after `struct` or `enum`.
fn type_name(item: TokenStream) -> String {
    let mut tokens = item.into_iter().map(|token| token.to_string());
    tokens.find(|token| token == "struct" || token == "enum");
    tokens.next().expect("a type has a name")
}

/// The literal in `error("..")`, quotes included.
fn error_message(attribute: TokenStream) -> String {
    match attribute.into_iter().last() {
        Some(TokenTree::Group(argument)) => argument.stream().to_string(),
        _ => panic!("`error` takes a message"),
    }
}

/// A variable for each type of a list of one-word types.
fn fields(types: TokenStream) -> String {
    let words = types
        .into_iter()
        .filter(|token| matches!(token, TokenTree::Ident(_)));
    words
        .enumerate()
        .map(|(i, _)| format!("field{i},"))
        .collect::<String>()
        .trim_end_matches(',')
        .to_owned()
}
