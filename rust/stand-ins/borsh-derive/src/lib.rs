//! Stand-in for the crate of this name: the two derives of Borsh, for the shapes that the original's four files have
//! and no others, so that they compile unchanged and nothing has to be fetched.
//!
//! Taken are structs with named fields, tuple structs, and enums without fields that give each variant its number and
//! say `#[borsh(use_discriminant = true)]`. A field may say `#[borsh(skip)]` (not written, read as its default) or
//! `#[borsh(deserialize_with = "path")]`. Anything else is refused with a message, never guessed at.
#![forbid(unsafe_code)]

mod parse;

use parse::{How, Item, Refusal, Shape};
use proc_macro::TokenStream;

#[proc_macro_derive(BorshSerialize, attributes(borsh))]
pub fn serialize(item: TokenStream) -> TokenStream {
    expand(item, serialize_impl)
}

#[proc_macro_derive(BorshDeserialize, attributes(borsh))]
pub fn deserialize(item: TokenStream) -> TokenStream {
    expand(item, deserialize_impl)
}

fn expand(item: TokenStream, write: fn(&Item) -> String) -> TokenStream {
    match parse::item(item) {
        Ok(item) => write(&item).parse().expect("the derive writes Rust"),
        Err(refusal) => compile_error(refusal),
    }
}

/// The refusal as the compiler's own error, at the place that it is about.
fn compile_error(Refusal { place, reason }: Refusal) -> TokenStream {
    let text = format!("::core::compile_error!({reason:?});");
    let tokens: TokenStream = text.parse().expect("a quoted string is Rust");
    let placed = tokens.into_iter().map(|mut token| {
        token.set_span(place);
        token
    });
    placed.collect()
}

fn serialize_impl(item: &Item) -> String {
    let body = match &item.shape {
        Shape::Struct(fields) => fields
            .iter()
            .filter(|field| !matches!(field.how, How::Skip))
            .map(|field| {
                format!("::borsh::BorshSerialize::serialize(&self.{}, writer)?;\n", field.name)
            })
            .collect(),
        Shape::Enum(variants) => {
            let arms: String =
                variants.iter().map(|(name, n)| format!("Self::{name} => {n}u8,\n")).collect();
            format!("::borsh::BorshSerialize::serialize(&match self {{\n{arms}}}, writer)?;\n")
        }
    };
    format!(
        "#[automatically_derived]
        #[allow(unused_variables)]
        impl ::borsh::BorshSerialize for {} {{
            #[inline]
            fn serialize<__W: ::std::io::Write>(&self, writer: &mut __W) -> ::std::io::Result<()> {{
                {body}
                ::core::result::Result::Ok(())
            }}
        }}",
        item.name
    )
}

fn deserialize_impl(item: &Item) -> String {
    let value = match &item.shape {
        Shape::Struct(fields) => {
            let fields: String = fields
                .iter()
                .map(|field| {
                    let value = match &field.how {
                        How::Plain => "::borsh::BorshDeserialize::deserialize_reader(reader)?",
                        How::Skip => "::core::default::Default::default()",
                        How::With(path) => &format!("{path}(reader)?"),
                    };
                    format!("{}: {value},\n", field.name)
                })
                .collect();
            // Holds for tuple structs as well: their fields are named 0, 1, ..
            format!("Self {{\n{fields}}}")
        }
        Shape::Enum(variants) => {
            let arms: String =
                variants.iter().map(|(name, n)| format!("{n}u8 => Self::{name},\n")).collect();
            format!(
                "match <u8 as ::borsh::BorshDeserialize>::deserialize_reader(reader)? {{
                    {arms}
                    tag => return ::core::result::Result::Err(::borsh::unexpected_variant(tag)),
                }}"
            )
        }
    };
    format!(
        "#[automatically_derived]
        #[allow(unused_variables)]
        impl ::borsh::BorshDeserialize for {} {{
            #[inline]
            fn deserialize_reader<__R: ::std::io::Read>(reader: &mut __R) -> ::std::io::Result<Self> {{
                ::core::result::Result::Ok({value})
            }}
        }}",
        item.name
    )
}
