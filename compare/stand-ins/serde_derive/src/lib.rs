//! A stand-in for the crate `serde_derive`: it gives a struct the trait, and no working body, since
//! the comparison writes nothing through it.

use proc_macro::{TokenStream, TokenTree};

#[proc_macro_derive(Serialize, attributes(serde))]
pub fn serialize(item: TokenStream) -> TokenStream {
    let mut words = item.into_iter().skip_while(|word| !is(word, "struct"));
    words.next();
    let name = words.next().expect("a struct has a name");
    format!(
        "impl ::serde::Serialize for {name} {{
            fn serialize<S: ::serde::Serializer>(&self, _: S) -> Result<S::Ok, S::Error> {{
                unimplemented!()
            }}
        }}"
    )
    .parse()
    .expect("the text above is Rust")
}

fn is(word: &TokenTree, text: &str) -> bool {
    matches!(word, TokenTree::Ident(name) if name.to_string() == text)
}
