//! From the tokens of a struct or enum to what the derives have to know of it. Types are stepped over, not read: the
//! compiler infers them in what the derives write.
use proc_macro::{token_stream::IntoIter, Delimiter, Group, Span, TokenStream, TokenTree};
use std::iter::Peekable;

pub struct Item {
    pub name: String,
    pub shape: Shape,
}

pub enum Shape {
    Struct(Vec<Field>),
    /// The variants with their numbers.
    Enum(Vec<(String, u8)>),
}

pub struct Field {
    /// The field's name; in a tuple struct its place.
    pub name: String,
    pub how: How,
}

pub enum How {
    Plain,
    Skip,
    /// Read by the function at this path.
    With(String),
}

pub struct Refusal {
    pub place: Span,
    pub reason: String,
}

type Tokens = Peekable<IntoIter>;

fn refuse<T>(place: Span, reason: impl Into<String>) -> Result<T, Refusal> {
    let reason = format!("this stand-in for borsh: {}", reason.into());
    Err(Refusal { place, reason })
}

pub fn item(item: TokenStream) -> Result<Item, Refusal> {
    let mut tokens = item.into_iter().peekable();
    let attributes = attributes(&mut tokens)?;
    visibility(&mut tokens);
    let (keyword, place) = ident(&mut tokens)?;
    let (name, _) = ident(&mut tokens)?;
    let shape = match (keyword.as_str(), tokens.next()) {
        (_, Some(TokenTree::Punct(angle))) if angle.as_char() == '<' => {
            return refuse(angle.span(), "type parameters are not supported");
        }
        ("struct", Some(TokenTree::Group(body))) if body.delimiter() != Delimiter::Bracket => {
            if let Some(attribute) = attributes.first() {
                return unsupported(attribute);
            }
            Shape::Struct(fields(body)?)
        }
        ("enum", Some(TokenTree::Group(body))) => {
            use_discriminant(&attributes, place)?;
            Shape::Enum(variants(body)?)
        }
        _ => return refuse(place, "only structs with fields and enums are supported"),
    };
    Ok(Item { name, shape })
}

fn ident(tokens: &mut Tokens) -> Result<(String, Span), Refusal> {
    match tokens.next() {
        Some(TokenTree::Ident(ident)) => Ok((ident.to_string(), ident.span())),
        Some(other) => refuse(other.span(), format!("a name was expected, not `{other}`")),
        None => refuse(Span::call_site(), "a name was expected"),
    }
}

fn is_punct(token: Option<&TokenTree>, wanted: char) -> bool {
    matches!(token, Some(TokenTree::Punct(punct)) if punct.as_char() == wanted)
}

/// Steps over the attributes that stand next, and gives the insides of those that are `#[borsh(..)]`.
fn attributes(tokens: &mut Tokens) -> Result<Vec<Group>, Refusal> {
    let mut found = Vec::new();
    while is_punct(tokens.peek(), '#') {
        tokens.next();
        let Some(TokenTree::Group(attribute)) = tokens.next() else {
            return refuse(Span::call_site(), "an attribute was expected after `#`");
        };
        let mut inside = attribute.stream().into_iter();
        match (inside.next(), inside.next()) {
            (Some(TokenTree::Ident(name)), Some(TokenTree::Group(group)))
                if name.to_string() == "borsh" =>
            {
                found.push(group);
            }
            (Some(TokenTree::Ident(name)), _) if name.to_string() == "borsh" => {
                return unsupported(&attribute);
            }
            _ => {}
        }
    }
    Ok(found)
}

fn unsupported<T>(attribute: &Group) -> Result<T, Refusal> {
    refuse(attribute.span(), format!("`{attribute}` is not supported here"))
}

fn visibility(tokens: &mut Tokens) {
    if !matches!(tokens.peek(), Some(TokenTree::Ident(word)) if word.to_string() == "pub") {
        return;
    }
    tokens.next();
    // A tuple struct's field may be of a tuple type, whose bracket is no part of the visibility.
    let restricted = match tokens.peek() {
        Some(TokenTree::Group(group)) if group.delimiter() == Delimiter::Parenthesis => {
            let first = group.stream().into_iter().next().map(|token| token.to_string());
            matches!(first.as_deref(), Some("crate" | "self" | "super" | "in"))
        }
        _ => false,
    };
    if restricted {
        tokens.next();
    }
}

/// Steps over a type and the comma after it.
fn step_over_type(tokens: &mut Tokens) {
    let mut depth = 0;
    let mut arrow = false;
    for token in tokens.by_ref() {
        let TokenTree::Punct(punct) = &token else {
            arrow = false;
            continue;
        };
        match punct.as_char() {
            ',' if depth == 0 => return,
            '<' => depth += 1,
            '>' if !arrow => depth -= 1,
            _ => {}
        }
        arrow = punct.as_char() == '-';
    }
}

fn fields(body: Group) -> Result<Vec<Field>, Refusal> {
    let named = body.delimiter() == Delimiter::Brace;
    let mut tokens = body.stream().into_iter().peekable();
    let mut fields = Vec::new();
    while tokens.peek().is_some() {
        let how = how(&attributes(&mut tokens)?)?;
        visibility(&mut tokens);
        let name = if named {
            let (name, place) = ident(&mut tokens)?;
            if !is_punct(tokens.next().as_ref(), ':') {
                return refuse(place, "a type was expected after the field's name");
            }
            name
        } else {
            fields.len().to_string()
        };
        step_over_type(&mut tokens);
        fields.push(Field { name, how });
    }
    Ok(fields)
}

fn how(attributes: &[Group]) -> Result<How, Refusal> {
    let [attribute] = attributes else {
        return match attributes.get(1) {
            None => Ok(How::Plain),
            Some(second) => refuse(second.span(), "one borsh attribute a field is supported"),
        };
    };
    let tokens: Vec<TokenTree> = attribute.stream().into_iter().collect();
    match tokens.as_slice() {
        [TokenTree::Ident(word)] if word.to_string() == "skip" => Ok(How::Skip),
        [TokenTree::Ident(word), equals, TokenTree::Literal(path)]
            if word.to_string() == "deserialize_with" && is_punct(Some(equals), '=') =>
        {
            let quoted = path.to_string();
            match quoted.strip_prefix('"').and_then(|rest| rest.strip_suffix('"')) {
                Some(path) if !path.contains('\\') => Ok(How::With(path.to_string())),
                _ => refuse(path.span(), "the path must be a plain string"),
            }
        }
        _ => unsupported(attribute),
    }
}

/// An enum has to say that its numbers are what is written; without that the real crate writes positions.
fn use_discriminant(attributes: &[Group], place: Span) -> Result<(), Refusal> {
    let [attribute] = attributes else {
        return refuse(place, "an enum needs `#[borsh(use_discriminant = true)]`, once");
    };
    let words: Vec<String> =
        attribute.stream().into_iter().map(|token| token.to_string()).collect();
    if words == ["use_discriminant", "=", "true"] {
        Ok(())
    } else {
        unsupported(attribute)
    }
}

fn variants(body: Group) -> Result<Vec<(String, u8)>, Refusal> {
    let mut tokens = body.stream().into_iter().peekable();
    let mut variants = Vec::new();
    while tokens.peek().is_some() {
        if let Some(attribute) = attributes(&mut tokens)?.first() {
            return unsupported(attribute);
        }
        let (name, place) = ident(&mut tokens)?;
        if let Some(TokenTree::Group(group)) = tokens.peek() {
            return refuse(group.span(), "variants with fields are not supported");
        }
        let number = match (is_punct(tokens.next().as_ref(), '='), tokens.next()) {
            (true, Some(TokenTree::Literal(number))) => number.to_string().parse().ok(),
            _ => None,
        };
        let ends = tokens.next();
        match number {
            Some(number) if ends.is_none() || is_punct(ends.as_ref(), ',') => {
                variants.push((name, number));
            }
            _ => return refuse(place, "a variant needs its number, written as 0 to 255"),
        }
    }
    Ok(variants)
}
