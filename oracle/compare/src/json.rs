//! A small parser of JSON, for what a program of the repository writes.

use std::iter::Peekable;
use std::str::Chars;

#[derive(Clone, Debug, PartialEq)]
pub enum Value {
    Bool(bool),
    /// As it is written.
    Number(String),
    Text(String),
    List(Vec<Value>),
    Object(Vec<(String, Value)>),
}

impl Value {
    pub fn get(&self, key: &str) -> Option<&Value> {
        match self {
            Value::Object(members) => members.iter().find(|(k, _)| k == key).map(|(_, v)| v),
            _ => None,
        }
    }

    pub fn text(&self, key: &str) -> Option<&str> {
        match self.get(key)? {
            Value::Text(text) => Some(text),
            _ => None,
        }
    }

    pub fn flag(&self, key: &str) -> Option<bool> {
        match self.get(key)? {
            Value::Bool(on) => Some(*on),
            _ => None,
        }
    }

    pub fn count(&self, key: &str) -> Option<usize> {
        self.get(key)?.whole()
    }

    pub fn list(&self, key: &str) -> Option<&[Value]> {
        match self.get(key)? {
            Value::List(list) => Some(list),
            _ => None,
        }
    }

    pub fn whole(&self) -> Option<usize> {
        match self {
            Value::Number(n) => n.parse().ok(),
            _ => None,
        }
    }

    /// The f32 of a member: a number, or the text that stands for one that JSON has not.
    pub fn float(&self, key: &str) -> Option<f32> {
        match self.get(key)? {
            Value::Number(n) => n.parse::<f64>().ok().map(|x| x as f32),
            Value::Text(text) => match text.as_str() {
                "inf" => Some(f32::INFINITY),
                "-inf" => Some(f32::NEG_INFINITY),
                "nan" => Some(f32::NAN),
                bits => u32::from_str_radix(bits.strip_prefix("0x")?, 16)
                    .ok()
                    .map(f32::from_bits),
            },
            _ => None,
        }
    }
}

/// The value that a line is.
pub fn read(line: &str) -> Option<Value> {
    let mut source = line.chars().peekable();
    let value = value(&mut source)?;
    source.next().is_none().then_some(value)
}

type Source<'a> = Peekable<Chars<'a>>;

fn value(source: &mut Source) -> Option<Value> {
    match source.peek()? {
        '{' => {
            let members = parts(source, '}', |source| {
                let key = text(source)?;
                source.next_if_eq(&':')?;
                Some((key, value(source)?))
            });
            members.map(Value::Object)
        }
        '[' => parts(source, ']', value).map(Value::List),
        '"' => text(source).map(Value::Text),
        _ => word(source),
    }
}

/// What stands between two brackets, with commas in between.
fn parts<T>(
    source: &mut Source,
    end: char,
    part: impl Fn(&mut Source) -> Option<T>,
) -> Option<Vec<T>> {
    source.next();
    let mut all = Vec::new();
    if source.next_if_eq(&end).is_some() {
        return Some(all);
    }
    loop {
        all.push(part(source)?);
        match source.next()? {
            ',' => {}
            c if c == end => return Some(all),
            _ => return None,
        }
    }
}

/// true, false or a number.
fn word(source: &mut Source) -> Option<Value> {
    let mut word = String::new();
    while let Some(c) = source.next_if(|c| c.is_ascii_alphanumeric() || "+-.".contains(*c)) {
        word.push(c);
    }
    match word.as_str() {
        "true" => Some(Value::Bool(true)),
        "false" => Some(Value::Bool(false)),
        number => number.parse::<f64>().ok().map(|_| Value::Number(word)),
    }
}

fn text(source: &mut Source) -> Option<String> {
    source.next_if_eq(&'"')?;
    let mut text = String::new();
    loop {
        match source.next()? {
            '"' => return Some(text),
            '\\' => text.push(escaped(source)?),
            c => text.push(c),
        }
    }
}

fn escaped(source: &mut Source) -> Option<char> {
    match source.next()? {
        'n' => Some('\n'),
        't' => Some('\t'),
        'r' => Some('\r'),
        'b' => Some('\u{8}'),
        'f' => Some('\u{c}'),
        'u' => {
            let digits = String::from_iter(source.take(4));
            u32::from_str_radix(&digits, 16)
                .ok()
                .and_then(char::from_u32)
        }
        c => Some(c),
    }
}

#[test]
fn reads_what_is_written() {
    let read =
        read(r#"{"a":[[1,11],[40,40]],"b":{"number":-0.5},"c":true,"d":"\u0001\"","e":"nan"}"#);
    let read = read.expect("an object");
    let runs = read.list("a").map(|runs| runs.len());
    assert_eq!((runs, read.flag("c")), (Some(2), Some(true)));
    assert_eq!(read.get("b").and_then(|b| b.float("number")), Some(-0.5));
    assert_eq!(read.text("d"), Some("\u{1}\""));
    assert!(read.float("e").is_some_and(f32::is_nan));
    assert_eq!(super::json::read("{\"a\":1}}"), None);
}
