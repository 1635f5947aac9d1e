//! The derives that the published text names, with no dependency.
//!
//! `FromPrimitive` and `IntoPrimitive` stand in for the crate `num_enum`: an
//! enum with a `repr` is made from its number, and a number that no variant
//! has gives the enum's default, as document 01, "Channels", says. `Serialize`
//! and `Deserialize` stand in for `serde` and make nothing: nothing here is
//! serialised.

mod plain_enum;

use plain_enum::PlainEnum;
use proc_macro::TokenStream;

#[proc_macro_derive(FromPrimitive)]
pub fn from_primitive(item: TokenStream) -> TokenStream {
    let PlainEnum {
        name,
        repr,
        variants,
    } = PlainEnum::parse(item);
    let tests: String = variants
        .iter()
        .map(|variant| {
            format!("if raw == {name}::{variant} as {repr} {{ return {name}::{variant}; }}")
        })
        .collect();
    format!(
        "impl From<{repr}> for {name} {{
            fn from(raw: {repr}) -> Self {{ {tests} <{name} as Default>::default() }}
        }}"
    )
    .parse()
    .unwrap()
}

#[proc_macro_derive(IntoPrimitive)]
pub fn into_primitive(item: TokenStream) -> TokenStream {
    let PlainEnum { name, repr, .. } = PlainEnum::parse(item);
    format!("impl From<{name}> for {repr} {{ fn from(e: {name}) -> {repr} {{ e as {repr} }} }}")
        .parse()
        .unwrap()
}

#[proc_macro_derive(Serialize, attributes(serde))]
pub fn serialize(_item: TokenStream) -> TokenStream {
    TokenStream::new()
}

#[proc_macro_derive(Deserialize, attributes(serde))]
pub fn deserialize(_item: TokenStream) -> TokenStream {
    TokenStream::new()
}
