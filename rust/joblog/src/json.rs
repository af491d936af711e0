//! JSON as far as joblog needs it: strings written, and one flat object read.
use std::{collections::BTreeMap, fmt::Write};

/// A string in quotes.
pub fn string(s: &str) -> String {
    let mut out = String::from("\"");
    for c in s.chars() {
        match c {
            '"' | '\\' => out.extend(['\\', c]),
            c if c < ' ' || c == '\u{7f}' => write!(out, "\\u{:04x}", c as u32).unwrap(),
            c => out.push(c),
        }
    }
    out + "\""
}

#[derive(Debug, Clone, PartialEq, Eq)]
pub enum Value {
    Text(String),
    Number(u64),
    Bool(bool),
    Null,
}

struct Reader<'a> {
    rest: &'a str,
}

impl<'a> Reader<'a> {
    fn take(&mut self, word: &str) -> bool {
        self.rest = self.rest.trim_start_matches([' ', '\t']);
        let found = self.rest.strip_prefix(word);
        self.rest = found.unwrap_or(self.rest);
        found.is_some()
    }
    fn escaped(&mut self) -> Option<char> {
        let mut chars = self.rest.chars();
        let c = match chars.next()? {
            'u' => {
                let digits = self.rest.get(1..5)?;
                self.rest = &self.rest[5..];
                let plain = digits.bytes().all(|b| b.is_ascii_hexdigit());
                return u32::from_str_radix(digits, 16).ok().filter(|_| plain).and_then(char::from_u32);
            }
            'n' => '\n',
            't' => '\t',
            'r' => '\r',
            c @ ('"' | '\\' | '/') => c,
            _ => return None,
        };
        self.rest = chars.as_str();
        Some(c)
    }
    fn text(&mut self) -> Option<String> {
        let mut out = String::new();
        loop {
            let mut chars = self.rest.chars();
            let c = chars.next()?;
            self.rest = chars.as_str();
            match c {
                '"' => return Some(out),
                '\\' => out.push(self.escaped()?),
                c if c < ' ' => return None,
                c => out.push(c),
            }
        }
    }
    fn value(&mut self) -> Option<Value> {
        if self.take("\"") {
            return self.text().map(Value::Text);
        }
        for (word, value) in [("true", Value::Bool(true)), ("false", Value::Bool(false)), ("null", Value::Null)] {
            if self.take(word) {
                return Some(value);
            }
        }
        let end = self.rest.find(|c: char| !c.is_ascii_digit()).unwrap_or(self.rest.len());
        let (digits, rest) = self.rest.split_at(end);
        self.rest = rest;
        digits.parse().ok().map(Value::Number)
    }
}

/// One object whose values are strings, whole numbers, true, false or null, and nothing after it.
pub fn object(text: &str) -> Option<BTreeMap<String, Value>> {
    let (mut r, mut out) = (Reader { rest: text }, BTreeMap::new());
    r.take("{").then_some(())?;
    while !r.take("}") {
        (out.is_empty() || r.take(",")).then_some(())?;
        r.take("\"").then_some(())?;
        let key = r.text()?;
        r.take(":").then_some(())?;
        let value = r.value()?;
        out.insert(key, value).is_none().then_some(())?;
    }
    r.rest.trim().is_empty().then_some(out)
}
