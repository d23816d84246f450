//! Stands in for serde's derive: `Deserialize` of a struct with named fields and no parameters.
use proc_macro::{Delimiter, TokenStream, TokenTree};

#[proc_macro_derive(Deserialize)]
pub fn deserialize(input: TokenStream) -> TokenStream {
    let mut name = String::new();
    let mut fields = Vec::new();
    let mut tokens = input.into_iter();
    while let Some(token) = tokens.next() {
        match token {
            TokenTree::Ident(word) if word.to_string() == "struct" => {
                name = tokens.next().expect("a struct's name").to_string();
            }
            TokenTree::Group(body) if body.delimiter() == Delimiter::Brace => {
                fields = field_names(body.stream());
            }
            _ => {}
        }
    }
    let reads: String = fields
        .iter()
        .map(|f| format!("{f}: serde::Deserialize::from_value(value.field(\"{f}\")?)?,"))
        .collect();
    format!(
        "impl serde::Deserialize for {name} {{
            fn from_value(value: &serde::Value) -> Result<Self, String> {{ Ok(Self {{ {reads} }}) }}
        }}"
    )
    .parse()
    .expect("the implementation's text")
}

/// The identifier before each colon that stands alone (the two of a path stand together).
fn field_names(body: TokenStream) -> Vec<String> {
    let mut names = Vec::new();
    let mut last = String::new();
    for token in body {
        match token {
            TokenTree::Punct(mark) if mark.as_char() == ':' => {
                if !last.is_empty() {
                    names.push(std::mem::take(&mut last));
                }
            }
            TokenTree::Punct(mark) if mark.as_char() == ',' => last.clear(),
            TokenTree::Ident(word) if last.is_empty() || last == "pub" => last = word.to_string(),
            _ => {}
        }
    }
    names
}
