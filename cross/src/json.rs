//! Reads one line of JSON: a flat object of plain strings, whole numbers and
//! nulls, which is all that recorded calls are made of.

use std::collections::BTreeMap;

enum Value {
    Text(String),
    Number(u32),
    Null,
}

pub struct Object {
    members: BTreeMap<String, Value>,
}

impl Object {
    pub fn number(&self, name: &str) -> Option<u32> {
        match self.members.get(name) {
            Some(Value::Number(number)) => Some(*number),
            _ => None,
        }
    }

    /// The bytes of a string in hex.
    pub fn bytes(&self, name: &str) -> Option<Vec<u8>> {
        let Some(Value::Text(text)) = self.members.get(name) else {
            return None;
        };
        let (pairs, rest) = text.as_bytes().as_chunks::<2>();
        let digit = |byte: u8| char::from(byte).to_digit(16);
        let bytes = pairs
            .iter()
            .map(|&[high, low]| Some((16 * digit(high)? + digit(low)?) as u8));
        rest.is_empty().then(|| bytes.collect())?
    }

    pub fn is_null(&self, name: &str) -> bool {
        matches!(self.members.get(name), Some(Value::Null))
    }
}

/// Reads an object, which is all that the line holds.
pub fn object(line: &str) -> Result<Object, String> {
    let mut members = BTreeMap::new();
    let mut rest = after(line, "{")?;
    loop {
        let (name, after_name) = text(rest)?;
        let (value, after_value) = value(after(after_name, ":")?)?;
        members.insert(name, value);
        match after(after_value, ",") {
            Ok(after_comma) => rest = after_comma,
            Err(_) => {
                let end = after(after_value, "}")?;
                return match end.trim() {
                    "" => Ok(Object { members }),
                    more => Err(format!("more than an object: {more:.20}")),
                };
            }
        }
    }
}

/// What follows the expected sign.
fn after<'a>(rest: &'a str, sign: &str) -> Result<&'a str, String> {
    let rest = rest.trim_start();
    rest.strip_prefix(sign)
        .ok_or(format!("{sign} expected before {rest:.20}"))
}

/// A string without escapes, and what follows it.
fn text(rest: &str) -> Result<(String, &str), String> {
    let inside = after(rest, "\"")?;
    match inside.split_once('"') {
        Some((text, rest)) if !text.contains('\\') => Ok((text.to_string(), rest)),
        _ => Err(format!("a plain string expected before {inside:.20}")),
    }
}

fn value(rest: &str) -> Result<(Value, &str), String> {
    let rest = rest.trim_start();
    if rest.starts_with('"') {
        return text(rest).map(|(text, rest)| (Value::Text(text), rest));
    }
    if let Some(rest) = rest.strip_prefix("null") {
        return Ok((Value::Null, rest));
    }
    let end = rest.find(|sign: char| !sign.is_ascii_digit());
    let (digits, rest) = rest.split_at(end.unwrap_or(rest.len()));
    match digits.parse() {
        Ok(number) => Ok((Value::Number(number), rest)),
        Err(error) => Err(format!("{error}: {digits:.20}")),
    }
}
