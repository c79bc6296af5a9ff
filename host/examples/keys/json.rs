//! Values of JSON, and how they are written: UTF-8 in one line, whatever a text holds.

use std::fmt::{self, Write};

pub enum Json {
    Null,
    Boolean(bool),
    Number(usize),
    Text(String),
    List(Vec<Json>),
    Object(Vec<(&'static str, Json)>),
}

impl Json {
    pub fn text(text: impl Into<String>) -> Json {
        Json::Text(text.into())
    }

    /// What there is, or null.
    pub fn or_null(value: Option<Json>) -> Json {
        value.unwrap_or(Json::Null)
    }
}

impl fmt::Display for Json {
    fn fmt(&self, f: &mut fmt::Formatter<'_>) -> fmt::Result {
        match self {
            Json::Null => f.write_str("null"),
            Json::Boolean(value) => write!(f, "{value}"),
            Json::Number(value) => write!(f, "{value}"),
            Json::Text(text) => write_text(f, text),
            Json::List(values) => write_list(f, values),
            Json::Object(fields) => write_object(f, fields),
        }
    }
}

fn write_list(f: &mut fmt::Formatter<'_>, values: &[Json]) -> fmt::Result {
    f.write_char('[')?;
    for (at, value) in values.iter().enumerate() {
        f.write_str(if at == 0 { "" } else { ", " })?;
        write!(f, "{value}")?;
    }
    f.write_char(']')
}

fn write_object(f: &mut fmt::Formatter<'_>, fields: &[(&str, Json)]) -> fmt::Result {
    f.write_char('{')?;
    for (at, (name, value)) in fields.iter().enumerate() {
        f.write_str(if at == 0 { "" } else { ", " })?;
        write_text(f, name)?;
        write!(f, ": {value}")?;
    }
    f.write_char('}')
}

/// Control characters are escaped, those above 7F hex too, and the two line ends of Unicode: they would break a line where the text is shown.
fn write_text(f: &mut fmt::Formatter<'_>, text: &str) -> fmt::Result {
    f.write_char('"')?;
    for next in text.chars() {
        match next {
            '"' | '\\' => write!(f, "\\{next}")?,
            '\u{2028}' | '\u{2029}' => write!(f, "\\u{:04x}", u32::from(next))?,
            _ if next.is_control() => write!(f, "\\u{:04x}", u32::from(next))?,
            _ => f.write_char(next)?,
        }
    }
    f.write_char('"')
}
