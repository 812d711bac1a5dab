//! Stands in for the crate `bitfield_struct`: `#[bitfield(u16)] struct S { a: u8, #[bits(3)] b: K }`
//! becomes a number with `new` (0), and for each field a getter, `with_` and `set_`, its bits counted
//! from the lowest. That is all that lower.rs and trees.rs use of it.

extern crate proc_macro;
use proc_macro::{Delimiter, TokenStream, TokenTree};
use std::fmt::Write;

/// A field as it is written, and where its bits lie.
struct Field {
    name: String,
    kind: String,
    bits: u32,
    offset: u32,
}

impl Field {
    /// The text of a getter's result; `bits` is the field's number.
    fn from_bits(&self) -> String {
        match self.kind.as_str() {
            "bool" => "bits != 0".into(),
            "u8" | "u16" | "u32" | "u64" | "usize" => format!("bits as {}", self.kind),
            other => format!("{other}::from_bits(bits as _)"),
        }
    }
    /// The text of the field's number; `value` is what a setter was given.
    fn into_bits(&self, whole: &str) -> String {
        match self.kind.as_str() {
            "bool" | "u8" | "u16" | "u32" | "u64" | "usize" => format!("value as {whole}"),
            _ => format!("value.into_bits() as {whole}"),
        }
    }
}

/// The bits of a type that has a width of its own.
fn width(kind: &str) -> u32 {
    match kind {
        "bool" => 1,
        "u8" => 8,
        "u16" => 16,
        "u32" => 32,
        other => panic!("a field of type {other} needs #[bits(N)]"),
    }
}

/// Reads `#[bits(N)] name: Kind, ..`; other attributes, as comments, are passed over.
fn fields(body: TokenStream) -> Vec<Field> {
    let mut found: Vec<Field> = Vec::new();
    let (mut bits, mut words) = (None, Vec::new());
    let mut end = |bits: &mut Option<u32>, words: &mut Vec<String>| {
        if let [name, kind] = &words[..] {
            let bits = bits.take().unwrap_or_else(|| width(kind));
            let offset = found.last().map_or(0, |f| f.offset + f.bits);
            found.push(Field { name: name.clone(), kind: kind.clone(), bits, offset });
        }
        words.clear();
    };
    for token in body {
        match token {
            TokenTree::Punct(p) if p.as_char() == ',' => end(&mut bits, &mut words),
            TokenTree::Punct(_) => {}
            TokenTree::Group(g) if g.delimiter() == Delimiter::Bracket => {
                let text = g.stream().to_string().replace(' ', "");
                if let Some(number) = text.strip_prefix("bits(") {
                    bits = number.trim_end_matches(')').parse().ok();
                }
            }
            word => words.push(word.to_string()),
        }
    }
    end(&mut bits, &mut words);
    found
}

#[proc_macro_attribute]
pub fn bitfield(whole: TokenStream, item: TokenStream) -> TokenStream {
    let whole = whole.to_string();
    let tokens: Vec<TokenTree> = item.into_iter().collect();
    let at = tokens.iter().position(|t| t.to_string() == "struct").expect("a struct");
    let before: TokenStream = tokens[..at].iter().cloned().collect();
    let name = tokens[at + 1].to_string();
    let TokenTree::Group(body) = &tokens[at + 2] else { panic!("a struct with named fields") };

    let mut methods = String::new();
    for field in fields(body.stream()) {
        let Field { name, kind, bits, offset } = &field;
        let upper = name.to_uppercase();
        let (from, into) = (field.from_bits(), field.into_bits(&whole));
        write!(
            methods,
            "const {upper}_BITS: usize = {bits};
            const fn {name}(&self) -> {kind} {{
                let bits = (self.0 >> {offset}) & ({whole}::MAX >> ({whole}::BITS - {bits}));
                {from}
            }}
            const fn with_{name}(self, value: {kind}) -> Self {{
                let mask = {whole}::MAX >> ({whole}::BITS - {bits});
                Self(self.0 & !(mask << {offset}) | (({into}) & mask) << {offset})
            }}
            const fn set_{name}(&mut self, value: {kind}) {{ *self = self.with_{name}(value); }}"
        )
        .unwrap();
    }
    format!(
        "{before} #[derive(Clone, Copy, Debug, Default)] #[repr(transparent)] struct {name}({whole});
        impl {name} {{ const fn new() -> Self {{ Self(0) }} {methods} }}
        impl From<{whole}> for {name} {{ fn from(bits: {whole}) -> Self {{ Self(bits) }} }}
        impl From<{name}> for {whole} {{ fn from(it: {name}) -> Self {{ it.0 }} }}"
    )
    .parse()
    .expect("the text above is Rust")
}
