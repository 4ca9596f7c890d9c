//! Stands in for the crate: an enum becomes an error whose text is its debug text. `#[from]` is written out in `lib.rs`.
extern crate proc_macro;
use proc_macro::TokenStream;

#[proc_macro_derive(Error, attributes(error, from))]
pub fn error(item: TokenStream) -> TokenStream {
    let words: Vec<String> = item.into_iter().map(|token| token.to_string()).collect();
    let place = words.iter().position(|word| word == "enum").expect("an enum");
    let name = &words[place + 1];
    format!(
        "impl std::error::Error for {name} {{}}
        impl std::fmt::Display for {name} {{
            fn fmt(&self, f: &mut std::fmt::Formatter<'_>) -> std::fmt::Result {{ write!(f, \"{{self:?}}\") }}
        }}"
    )
    .parse()
    .expect("two impls")
}
