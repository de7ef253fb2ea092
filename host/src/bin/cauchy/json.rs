//! Values as JSON writes them (RFC 8259).
use crate::figures::whole;
use std::fmt::{self, Display, Formatter, Write};
use std::path::Path;

/// A value. An object keeps its members in the order in which they were given.
#[derive(Clone, Debug, PartialEq)]
pub enum Value {
    Null,
    Bool(bool),
    /// A float, by the shortest decimal that gives it back. NaN and the infinities, which JSON has not, become the
    /// strings "NaN", "inf" and "-inf".
    Number(f64),
    /// A whole number, exact.
    Whole(i128),
    String(String),
    List(Vec<Value>),
    Object(Vec<(&'static str, Value)>),
}

/// An object of these members.
pub fn object<const N: usize>(members: [(&'static str, Value); N]) -> Value {
    Value::Object(members.into())
}

impl Value {
    /// Whether it has nothing within.
    fn is_bare(&self) -> bool {
        match self {
            Value::List(values) => values.is_empty(),
            Value::Object(members) => members.is_empty(),
            _ => true,
        }
    }

    /// Whether it has no values within that have some within.
    fn is_flat(&self) -> bool {
        match self {
            Value::List(values) => values.iter().all(Value::is_bare),
            Value::Object(members) => members.iter().all(|(_, value)| value.is_bare()),
            _ => true,
        }
    }

    /// With more members at its end, where it is an object.
    pub fn and(mut self, more: impl IntoIterator<Item = (&'static str, Value)>) -> Value {
        if let Value::Object(members) = &mut self {
            members.extend(more);
        }
        self
    }

    /// Writes it, so many steps to the right. Where lines are wanted, the whole and what is not flat get a line for
    /// each part.
    fn write(&self, f: &mut Formatter<'_>, depth: usize) -> fmt::Result {
        let lines = f.alternate() && !self.is_bare() && (depth == 0 || !self.is_flat());
        match self {
            Value::Null => f.write_str("null"),
            Value::Bool(is) => write!(f, "{is}"),
            Value::Number(x) if x.is_finite() => f.write_str(&whole(*x)),
            Value::Number(x) => write_string(f, &x.to_string()),
            Value::Whole(n) => write!(f, "{n}"),
            Value::String(text) => write_string(f, text),
            Value::List(values) => {
                let parts = values.iter().map(|value| (None, value));
                write_parts(f, ['[', ']'], lines, depth, parts)
            }
            Value::Object(members) => {
                let parts = members.iter().map(|(name, value)| (Some(*name), value));
                write_parts(f, ['{', '}'], lines, depth, parts)
            }
        }
    }
}

fn write_parts<'a>(
    f: &mut Formatter<'_>,
    [open, close]: [char; 2],
    lines: bool,
    depth: usize,
    parts: impl Iterator<Item = (Option<&'a str>, &'a Value)>,
) -> fmt::Result {
    f.write_char(open)?;
    let new_line = |depth: usize| if lines { format!("\n{:1$}", "", 2 * depth) } else { String::new() };
    for (i, (name, value)) in parts.enumerate() {
        f.write_str(match (i, lines) {
            (0, _) => "",
            (_, true) => ",",
            (_, false) => ", ",
        })?;
        f.write_str(&new_line(depth + 1))?;
        if let Some(name) = name {
            write_string(f, name)?;
            f.write_str(": ")?;
        }
        value.write(f, depth + 1)?;
    }
    f.write_str(&new_line(depth))?;
    f.write_char(close)
}

fn write_string(f: &mut Formatter<'_>, text: &str) -> fmt::Result {
    f.write_char('"')?;
    for c in text.chars() {
        match c {
            '"' | '\\' => write!(f, "\\{c}")?,
            '\n' => f.write_str("\\n")?,
            // control characters, and two line ends that are none in JSON and are in JavaScript
            c if c < ' ' || ('\u{7f}'..'\u{a0}').contains(&c) || matches!(c, '\u{2028}' | '\u{2029}') => {
                write!(f, "\\u{:04x}", u32::from(c))?;
            }
            c => f.write_char(c)?,
        }
    }
    f.write_char('"')
}

/// On one line by `{}`; by `{:#}` a line for each part of the whole and of what is not flat, two spaces to the right.
impl Display for Value {
    fn fmt(&self, f: &mut Formatter<'_>) -> fmt::Result {
        self.write(f, 0)
    }
}

impl From<bool> for Value {
    fn from(is: bool) -> Value {
        Value::Bool(is)
    }
}

impl From<f64> for Value {
    fn from(x: f64) -> Value {
        Value::Number(x)
    }
}

impl From<u32> for Value {
    fn from(n: u32) -> Value {
        Value::Whole(n.into())
    }
}

impl From<u64> for Value {
    fn from(n: u64) -> Value {
        Value::Whole(n.into())
    }
}

impl From<i128> for Value {
    fn from(n: i128) -> Value {
        Value::Whole(n)
    }
}

impl From<&str> for Value {
    fn from(text: &str) -> Value {
        Value::String(text.to_string())
    }
}

impl From<String> for Value {
    fn from(text: String) -> Value {
        Value::String(text)
    }
}

impl From<&Path> for Value {
    fn from(path: &Path) -> Value {
        Value::String(path.display().to_string())
    }
}

impl<T: Into<Value>> From<Option<T>> for Value {
    fn from(some: Option<T>) -> Value {
        some.map_or(Value::Null, Into::into)
    }
}

impl<T: Into<Value>> From<Vec<T>> for Value {
    fn from(values: Vec<T>) -> Value {
        values.into_iter().collect()
    }
}

impl<T: Into<Value>> FromIterator<T> for Value {
    fn from_iter<I: IntoIterator<Item = T>>(values: I) -> Value {
        Value::List(values.into_iter().map(Into::into).collect())
    }
}

#[cfg(test)]
mod tests {
    use super::*;

    #[test]
    fn values_are_written() {
        let bare = [Value::Null, true.into(), 7_u32.into(), (-3_i128).into(), "a".into()];
        assert_eq!(bare.map(|value| value.to_string()), ["null", "true", "7", "-3", "\"a\""]);
        let value =
            object([("b", vec![1_u32, 2].into()), ("a", Value::Object(vec![])), ("c", None::<f64>.into())]);
        assert_eq!(value.to_string(), r#"{"b": [1, 2], "a": {}, "c": null}"#);
        let lines = "{\n  \"b\": [1, 2],\n  \"a\": {},\n  \"c\": null\n}";
        assert_eq!(format!("{value:#}"), lines);
        let rows: Value = [1_u32, 2].map(|x| object([("x", x.into())])).into_iter().collect();
        assert_eq!(format!("{rows:#}"), "[\n  {\"x\": 1},\n  {\"x\": 2}\n]");
        assert_eq!(format!("{:#}", Value::List(vec![])), "[]");
        assert_eq!(format!("{:#}", object([("x", 1_u32.into())])), "{\n  \"x\": 1\n}");
    }

    #[test]
    fn numbers_come_back_and_others_are_strings() {
        for x in [0.0, -0.0, 0.1, 1e22, -2.5e-7, f64::MAX, f64::MIN_POSITIVE, 5e-324, 123_456_789.125] {
            let text = Value::from(x).to_string();
            assert_eq!(text.parse::<f64>().unwrap().to_bits(), x.to_bits());
            assert!(text.starts_with(|c: char| c == '-' || c.is_ascii_digit()) && text.len() < 30, "{text}");
        }
        let others = [f64::NAN, f64::INFINITY, f64::NEG_INFINITY].map(|x| Value::from(x).to_string());
        assert_eq!(others, ["\"NaN\"", "\"inf\"", "\"-inf\""]);
    }

    #[test]
    fn text_is_escaped() {
        let text = "\"\\/ \u{0}\n\t\u{1f}\u{7f}\u{85}\u{2028} é 🜨";
        let want = r#""\"\\/ \u0000\n\u0009\u001f\u007f\u0085\u2028 é 🜨""#;
        assert_eq!(Value::from(text).to_string(), want);
        assert_eq!(object([("a\"", "".into())]).to_string(), r#"{"a\"": ""}"#);
    }
}
