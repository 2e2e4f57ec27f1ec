//! The derives that the source names, as text: each reads the type's name off the tokens and writes an `impl` with an empty body.
//! The types of the source that derive these have no generics.
use proc_macro::{TokenStream, TokenTree};

/// The name after `struct` or `enum`.
fn name(item: TokenStream) -> String {
    let mut after = false;
    for token in item {
        if let TokenTree::Ident(word) = token {
            let word = word.to_string();
            if after {
                return word;
            }
            after = word == "struct" || word == "enum";
        }
    }
    panic!("neither a struct nor an enum");
}

fn implements(what: &str, item: TokenStream) -> TokenStream {
    format!("unsafe impl ::zerocopy::{} for {} {{}}", what, name(item)).parse().unwrap()
}

#[proc_macro_derive(FromBytes)]
pub fn from_bytes(item: TokenStream) -> TokenStream {
    implements("FromBytes", item)
}

#[proc_macro_derive(IntoBytes)]
pub fn into_bytes(item: TokenStream) -> TokenStream {
    implements("IntoBytes", item)
}

/// Alignment 1 is what lets a reference be taken anywhere, so it is asserted where it is derived.
#[proc_macro_derive(Unaligned)]
pub fn unaligned(item: TokenStream) -> TokenStream {
    let name = name(item);
    format!(
        "unsafe impl ::zerocopy::Unaligned for {name} {{}} const _: () = assert!(::core::mem::align_of::<{name}>() == 1);"
    )
    .parse()
    .unwrap()
}

#[proc_macro_derive(KnownLayout)]
pub fn known_layout(item: TokenStream) -> TokenStream {
    implements("KnownLayout", item)
}

#[proc_macro_derive(Immutable)]
pub fn immutable(item: TokenStream) -> TokenStream {
    implements("Immutable", item)
}

/// Serialization stays behind: nothing here asks for these traits of a type that derives them.
#[proc_macro_derive(Serialize, attributes(serde))]
pub fn serialize(_: TokenStream) -> TokenStream {
    TokenStream::new()
}

#[proc_macro_derive(Deserialize, attributes(serde))]
pub fn deserialize(_: TokenStream) -> TokenStream {
    TokenStream::new()
}

#[proc_macro_derive(JsonSchema, attributes(serde, schemars))]
pub fn json_schema(_: TokenStream) -> TokenStream {
    TokenStream::new()
}

/// An error whose text is its type's name: no text of an error is compared.
#[proc_macro_derive(Error, attributes(error))]
pub fn error(item: TokenStream) -> TokenStream {
    let name = name(item);
    format!(
        "impl ::std::fmt::Display for {name} {{ fn fmt(&self, f: &mut ::std::fmt::Formatter) -> ::std::fmt::Result {{ f.write_str(\"{name}\") }} }}
         impl ::std::error::Error for {name} {{}}"
    )
    .parse()
    .unwrap()
}
