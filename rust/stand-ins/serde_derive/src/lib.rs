//! A stand-in for `serde_derive` 1, for tests where no registry is reached: both derives, for structs with named fields,
//! and of attributes `#[serde(bound(..))]` alone.
#![forbid(unsafe_code)]

use proc_macro::{Delimiter, TokenStream, TokenTree};

/// Implements `Serialize`: a struct is written field by field.
#[proc_macro_derive(Serialize, attributes(serde))]
pub fn derive_serialize(input: TokenStream) -> TokenStream {
    let Struct { name, params, fields, bounds } = Struct::of(input);
    let (params_text, args) = (list(params.iter().map(Param::declared)), list(params.iter().map(|one| &one.name)));
    let bound = bounds.of("serialize", &params, "::serde::Serialize");
    let writes: String = fields
        .iter()
        .map(|field| format!("::serde::ser::SerializeStruct::serialize_field(&mut to, \"{field}\", &self.{field})?;"))
        .collect();
    let count = fields.len();
    format!(
        "impl<{params_text}> ::serde::Serialize for {name}<{args}> where {bound} {{
            fn serialize<__S: ::serde::Serializer>(&self, to: __S) -> ::core::result::Result<__S::Ok, __S::Error> {{
                let mut to = ::serde::Serializer::serialize_struct(to, \"{name}\", {count})?;
                {writes}
                ::serde::ser::SerializeStruct::end(to)
            }}
        }}"
    )
    .parse()
    .expect("Rust")
}

/// Implements `Deserialize`: the fields of a struct are read in order.
#[proc_macro_derive(Deserialize, attributes(serde))]
pub fn derive_deserialize(input: TokenStream) -> TokenStream {
    let Struct { name, params, fields, bounds } = Struct::of(input);
    let (params_text, args) = (list(params.iter().map(Param::declared)), list(params.iter().map(|one| &one.name)));
    let bound = bounds.of("deserialize", &params, "::serde::Deserialize<'de>");
    let reads: String = fields
        .iter()
        .map(|field| format!("{field}: ::serde::de::next_field(&mut from, \"{field}\")?,"))
        .collect();
    let names = list(fields.iter().map(|field| format!("\"{field}\"")));
    format!(
        "impl<'de, {params_text}> ::serde::Deserialize<'de> for {name}<{args}> where {bound} {{
            fn deserialize<__D: ::serde::Deserializer<'de>>(from: __D) -> ::core::result::Result<Self, __D::Error> {{
                struct Fields<__T>(::core::marker::PhantomData<__T>);

                impl<'de, {params_text}> ::serde::de::Visitor<'de> for Fields<{name}<{args}>> where {bound} {{
                    type Value = {name}<{args}>;

                    fn expecting(&self, to: &mut ::core::fmt::Formatter<'_>) -> ::core::fmt::Result {{
                        to.write_str(\"struct {name}\")
                    }}

                    fn visit_seq<__A: ::serde::de::SeqAccess<'de>>(
                        self,
                        mut from: __A,
                    ) -> ::core::result::Result<Self::Value, __A::Error> {{
                        ::core::result::Result::Ok({name} {{ {reads} }})
                    }}
                }}

                let fields = Fields(::core::marker::PhantomData);
                ::serde::Deserializer::deserialize_struct(from, \"{name}\", &[{names}], fields)
            }}
        }}"
    )
    .parse()
    .expect("Rust")
}

/// A parameter of a struct.
struct Param {
    /// Whether it is a constant.
    is_const: bool,
    /// Its name.
    name: String,
    /// Its bounds or its type.
    bound: String,
}

impl Param {
    /// The parameter as an `impl` declares it.
    fn declared(&self) -> String {
        let Param { is_const, name, bound } = self;
        format!("{}{name}{}{bound}", if *is_const { "const " } else { "" }, if bound.is_empty() { "" } else { ": " })
    }
}

/// What `#[serde(bound(..))]` says of the struct and of its fields, by the name of the derive.
struct Bounds {
    of_struct: Vec<(String, String)>,
    of_fields: Vec<(String, String)>,
}

impl Bounds {
    /// The bounds of a derive: those of the struct, or else that each type parameter has the trait, and those of
    /// fields.
    fn of(&self, key: &str, params: &[Param], path: &str) -> String {
        let of_key = |bounds: &[(String, String)]| {
            let found = bounds.iter().filter(|(name, _)| name == key).map(|(_, bound)| bound.clone());
            found.collect::<Vec<_>>()
        };
        let mut bounds = of_key(&self.of_struct);
        if bounds.is_empty() {
            let types = params.iter().filter(|param| !param.is_const);
            bounds = types.map(|param| format!("{}: {path}", param.name)).collect();
        }
        bounds.extend(of_key(&self.of_fields));
        bounds.join(", ")
    }
}

/// A struct with named fields.
struct Struct {
    name: String,
    params: Vec<Param>,
    fields: Vec<String>,
    bounds: Bounds,
}

impl Struct {
    /// Reads a struct.
    fn of(input: TokenStream) -> Struct {
        let tokens: Vec<TokenTree> = input.into_iter().collect();
        let head = tokens.iter().position(|token| is(token, "struct")).expect("derives are for structs");
        let Some(TokenTree::Group(body)) = tokens.last() else { panic!("derives are for structs with named fields") };
        let mut bounds = Bounds { of_struct: Vec::new(), of_fields: Vec::new() };
        attributes_in(&tokens[..head], &mut bounds.of_struct);
        let params = params_in(&tokens[head + 2..tokens.len() - 1]);
        let fields = fields_in(body.stream(), &mut bounds.of_fields);
        Struct { name: tokens[head + 1].to_string(), params, fields, bounds }
    }
}

/// Whether a token has this text.
fn is(token: &TokenTree, text: &str) -> bool {
    token.to_string() == text
}

/// Texts with commas between them.
fn list<T: ToString>(texts: impl Iterator<Item = T>) -> String {
    texts.map(|text| text.to_string()).collect::<Vec<_>>().join(", ")
}

/// Tokens, parted at commas that no `<` and `>` surround.
fn parted(tokens: impl IntoIterator<Item = TokenTree>) -> Vec<Vec<TokenTree>> {
    let (mut parts, mut depth) = (vec![Vec::new()], 0);
    for token in tokens {
        depth += i32::from(is(&token, "<")) - i32::from(is(&token, ">"));
        if depth == 0 && is(&token, ",") {
            parts.push(Vec::new());
        } else {
            parts.last_mut().expect("a part").push(token);
        }
    }
    parts.retain(|part| !part.is_empty());
    parts
}

/// The parameters between `<` and `>`, or none.
fn params_in(tokens: &[TokenTree]) -> Vec<Param> {
    let [_, tokens @ .., _] = tokens else { return Vec::new() };
    let param = |part: Vec<TokenTree>| {
        let is_const = is(&part[0], "const");
        let part = &part[usize::from(is_const)..];
        let bound: TokenStream = part[1..].iter().skip(1).cloned().collect();
        Param { is_const, name: part[0].to_string(), bound: bound.to_string() }
    };
    parted(tokens.to_vec()).into_iter().map(param).collect()
}

/// The names of fields.
fn fields_in(body: TokenStream, bounds: &mut Vec<(String, String)>) -> Vec<String> {
    let field = |part: Vec<TokenTree>| {
        let colon = part.iter().position(|token| is(token, ":")).expect("a field has a type");
        attributes_in(&part[..colon], bounds);
        part[colon - 1].to_string()
    };
    parted(body).into_iter().map(field).collect()
}

/// Reads `#[serde(bound(KEY = "BOUND", ..), ..)]` among attributes.
fn attributes_in(tokens: &[TokenTree], bounds: &mut Vec<(String, String)>) {
    for token in tokens {
        let TokenTree::Group(attribute) = token else { continue };
        if attribute.delimiter() != Delimiter::Bracket {
            continue;
        }
        let words: Vec<TokenTree> = attribute.stream().into_iter().collect();
        let [name, TokenTree::Group(serde)] = words.as_slice() else { continue };
        if !is(name, "serde") {
            continue;
        }
        for part in parted(serde.stream()) {
            let [name, TokenTree::Group(texts)] = part.as_slice() else { panic!("an attribute that is not known") };
            assert!(is(name, "bound"), "an attribute that is not known");
            for text in parted(texts.stream()) {
                bounds.push((text[0].to_string(), text[2].to_string().trim_matches('"').to_string()));
            }
        }
    }
}
