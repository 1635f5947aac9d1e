//! A small parser of JSON objects, as strict as RFC 8259, that also declines a key that stands twice.

use std::iter::Peekable;
use std::str::Chars;

#[derive(Clone, Debug, PartialEq)]
pub enum Value {
    Bool(bool),
    /// As it is written.
    Number(String),
    Text(String),
    List(Vec<Value>),
    Inner(Object),
}

/// The members in their order.
#[derive(Clone, Debug, PartialEq)]
pub struct Object(pub Vec<(String, Value)>);

impl Object {
    pub fn get(&self, key: &str) -> Option<&Value> {
        self.0.iter().find(|(k, _)| k == key).map(|(_, v)| v)
    }

    pub fn has(&self, key: &str) -> bool {
        self.get(key).is_some()
    }

    pub fn text(&self, key: &str) -> &str {
        match self.get(key) {
            Some(Value::Text(text)) => text,
            other => panic!("{key} is {other:?}, not a text, in {self:?}"),
        }
    }

    pub fn flag(&self, key: &str) -> bool {
        match self.get(key) {
            Some(Value::Bool(on)) => *on,
            other => panic!("{key} is {other:?}, not true or false, in {self:?}"),
        }
    }

    pub fn count(&self, key: &str) -> usize {
        match self.get(key) {
            Some(Value::Number(n)) => n.parse().unwrap(),
            other => panic!("{key} is {other:?}, not a count, in {self:?}"),
        }
    }

    pub fn inner(&self, key: &str) -> &Object {
        match self.get(key) {
            Some(Value::Inner(object)) => object,
            other => panic!("{key} is {other:?}, not an object, in {self:?}"),
        }
    }

    /// The numbers of a member that is a list of pairs.
    pub fn pairs(&self, key: &str) -> Vec<[usize; 2]> {
        let pair = |value: &Value| match value {
            Value::List(pair) => match &pair[..] {
                [Value::Number(a), Value::Number(b)] => [a.parse().unwrap(), b.parse().unwrap()],
                other => panic!("{other:?} is no pair of counts, in {self:?}"),
            },
            other => panic!("{other:?} is no list, in {self:?}"),
        };
        match self.get(key) {
            Some(Value::List(list)) => list.iter().map(pair).collect(),
            other => panic!("{key} is {other:?}, not a list, in {self:?}"),
        }
    }

    /// The f32 of a member: a number, or the string that stands for one that has none here.
    pub fn float(&self, key: &str) -> f32 {
        match self.get(key) {
            Some(Value::Number(n)) => n.parse::<f64>().unwrap() as f32,
            Some(Value::Text(text)) => match text.as_str() {
                "inf" => f32::INFINITY,
                "-inf" => f32::NEG_INFINITY,
                "nan" => f32::NAN,
                bits => {
                    let digits = bits.strip_prefix("0x").expect("bits begin with 0x");
                    assert_eq!(digits.len(), 8, "{bits}");
                    f32::from_bits(u32::from_str_radix(digits, 16).unwrap())
                }
            },
            other => panic!("{key} is {other:?}, not a number, in {self:?}"),
        }
    }
}

type Source<'a> = Peekable<Chars<'a>>;

/// The object that a line is.
pub fn object(line: &str) -> Result<Object, String> {
    let mut source = line.chars().peekable();
    let object = members(&mut source)?;
    match source.next() {
        None => Ok(object),
        Some(c) => Err(format!("{c:?} behind the object")),
    }
}

fn expect(source: &mut Source, wanted: char) -> Result<(), String> {
    match source.next() {
        Some(c) if c == wanted => Ok(()),
        other => Err(format!("{other:?} where {wanted:?} must be")),
    }
}

fn members(source: &mut Source) -> Result<Object, String> {
    let mut object = Object(Vec::new());
    expect(source, '{')?;
    if source.next_if_eq(&'}').is_some() {
        return Ok(object);
    }
    loop {
        let key = text(source)?;
        if object.has(&key) {
            return Err(format!("the key {key} stands twice"));
        }
        expect(source, ':')?;
        object.0.push((key, value(source)?));
        match source.next() {
            Some(',') => {}
            Some('}') => return Ok(object),
            other => return Err(format!("{other:?} behind a member")),
        }
    }
}

fn value(source: &mut Source) -> Result<Value, String> {
    match source.peek() {
        Some('"') => text(source).map(Value::Text),
        Some('t') => literal(source, "true").map(|()| Value::Bool(true)),
        Some('f') => literal(source, "false").map(|()| Value::Bool(false)),
        Some('[') => list(source).map(Value::List),
        Some('{') => members(source).map(Value::Inner),
        _ => number(source).map(Value::Number),
    }
}

fn list(source: &mut Source) -> Result<Vec<Value>, String> {
    let mut list = Vec::new();
    expect(source, '[')?;
    if source.next_if_eq(&']').is_some() {
        return Ok(list);
    }
    loop {
        list.push(value(source)?);
        match source.next() {
            Some(',') => {}
            Some(']') => return Ok(list),
            other => return Err(format!("{other:?} behind an element")),
        }
    }
}

fn literal(source: &mut Source, word: &str) -> Result<(), String> {
    word.chars().try_for_each(|c| expect(source, c))
}

fn digits(source: &mut Source, into: &mut String) -> Result<(), String> {
    let before = into.len();
    while let Some(c) = source.next_if(char::is_ascii_digit) {
        into.push(c);
    }
    if into.len() == before {
        return Err(format!("no digit behind {into:?}"));
    }
    Ok(())
}

fn number(source: &mut Source) -> Result<String, String> {
    let mut n = String::from_iter(source.next_if_eq(&'-'));
    let sign = n.len();
    digits(source, &mut n)?;
    if n.len() > sign + 1 && n[sign..].starts_with('0') {
        return Err(format!("{n} has a zero in front"));
    }
    if let Some(point) = source.next_if_eq(&'.') {
        n.push(point);
        digits(source, &mut n)?;
    }
    if let Some(e) = source.next_if(|c| "eE".contains(*c)) {
        n.push(e);
        n.extend(source.next_if(|c| "+-".contains(*c)));
        digits(source, &mut n)?;
    }
    Ok(n)
}

fn text(source: &mut Source) -> Result<String, String> {
    expect(source, '"')?;
    let mut text = String::new();
    loop {
        match source.next().ok_or("a text has no end")? {
            '"' => return Ok(text),
            '\\' => text.push(escaped(source)?),
            c if c < ' ' => return Err(format!("{c:?} is written raw")),
            c => text.push(c),
        }
    }
}

/// The character of an escape. Pairs of surrogates are not needed: what is outside of the plane is written as it is.
fn escaped(source: &mut Source) -> Result<char, String> {
    match source.next() {
        Some(c @ ('"' | '\\' | '/')) => Ok(c),
        Some('n') => Ok('\n'),
        Some('t') => Ok('\t'),
        Some('r') => Ok('\r'),
        Some('b') => Ok('\u{8}'),
        Some('f') => Ok('\u{c}'),
        Some('u') => {
            let digits = String::from_iter(source.take(4));
            let plain = digits.len() == 4 && digits.chars().all(|c| c.is_ascii_hexdigit());
            let code = plain.then(|| u32::from_str_radix(&digits, 16).unwrap());
            let c = code.and_then(char::from_u32);
            c.ok_or(format!("\\u{digits} is no character"))
        }
        other => Err(format!("\\{other:?} is no escape")),
    }
}

#[test]
fn the_parser_reads_objects() {
    let read = object(r#"{"a":-0.5e3,"b":"\"\u001b\\ü","c":true,"d":0,"e":"0x00000001"}"#).unwrap();
    assert_eq!((read.float("a"), read.text("b")), (-500.0, "\"\u{1b}\\ü"));
    assert!(read.flag("c") && read.count("d") == 0 && !read.has("f"));
    assert_eq!(read.float("e").to_bits(), 1);
    let read = object(r#"{"a":[],"b":[[1,2],[3,3]],"c":{"d":0,"e":{}}}"#).unwrap();
    assert_eq!(
        (read.pairs("a"), read.pairs("b")),
        (vec![], vec![[1, 2], [3, 3]])
    );
    assert_eq!(
        (read.inner("c").count("d"), read.inner("c").has("a")),
        (0, false)
    );
    assert_eq!(object("{}"), Ok(Object(vec![])));
}

#[test]
fn the_parser_declines_what_is_no_object() {
    let broken = [
        "",
        "{",
        "[]",
        "{} ",
        "{\"a\":1,}",
        "{\"a\":01}",
        "{\"a\":1.}",
        "{\"a\":-}",
        "{\"a\":.5}",
        "{\"a\":~1}",
        "{\"a\":nan}",
        "{\"a\":\"\u{1}\"}",
        "{\"a\":\"\\x\"}",
        "{\"a\":\"\\ud800\"}",
        "{\"a\":\"\\u+123\"}",
        "{\"a\":1,\"a\":2}",
        "{\"a\" :1}",
        "{\"a\":1}{",
        "{a:1}",
        "{\"a\":\"",
        "{\"a\":tru}",
        "{\"a\":1e}",
        "{\"a\":[1,]}",
        "{\"a\":[1}",
        "{\"a\":[,1]}",
        "{\"a\":{\"b\"}}",
    ];
    for line in broken {
        assert!(object(line).is_err(), "{line} was read");
    }
}
