//! A small parser of JSON, which stands for that of serde_json where there is no registry.

use crate::value::{Error, Number, Value};
use rshim::alloc::{AllocError, Global};
use rshim::{String, Vec};

/// How deep arrays and objects nest, as serde_json has it.
const DEEPEST: u32 = 127;

/// The value that bytes spell.
///
/// # Errors
/// `Json` where they are not JSON; there may be no memory.
pub(crate) fn read(alloc: Global, bytes: &[u8]) -> Result<Value, Error> {
    let text = str::from_utf8(bytes).map_err(|_| Error::Json)?;
    let mut parser = Parser { alloc, text, at: 0 };
    let value = parser.value(DEEPEST)?;
    parser.skip_space();
    if parser.at == text.len() { Ok(value) } else { Err(Error::Json) }
}

struct Parser<'a> {
    alloc: Global,
    text: &'a str,
    at: usize,
}

impl Parser<'_> {
    fn next(&self) -> Option<u8> {
        self.text.as_bytes().get(self.at).copied()
    }

    fn skip_space(&mut self) {
        while let Some(b' ' | b'\n' | b'\r' | b'\t') = self.next() {
            self.at += 1;
        }
    }

    /// Goes behind a byte, if it is there.
    fn skip(&mut self, byte: u8) -> bool {
        let is_there = self.next() == Some(byte);
        self.at += usize::from(is_there);
        is_there
    }

    fn want(&mut self, byte: u8) -> Result<(), Error> {
        self.skip_space();
        if self.skip(byte) { Ok(()) } else { Err(Error::Json) }
    }

    /// A value in which arrays and objects nest so deep at most.
    fn value(&mut self, depth: u32) -> Result<Value, Error> {
        self.skip_space();
        match self.next().ok_or(Error::Json)? {
            b'n' => self.word("null", Value::Null),
            b't' => self.word("true", Value::Bool(true)),
            b'f' => self.word("false", Value::Bool(false)),
            b'"' => Ok(Value::String(self.string()?)),
            b'[' => self.array(depth.checked_sub(1).ok_or(Error::Json)?),
            b'{' => self.object(depth.checked_sub(1).ok_or(Error::Json)?),
            b'-' | b'0'..=b'9' => Ok(Value::Number(self.number()?)),
            _ => Err(Error::Json),
        }
    }

    fn word(&mut self, word: &str, value: Value) -> Result<Value, Error> {
        if !self.text[self.at..].starts_with(word) {
            return Err(Error::Json);
        }
        self.at += word.len();
        Ok(value)
    }

    fn array(&mut self, depth: u32) -> Result<Value, Error> {
        self.want(b'[')?;
        let mut elements = Vec::new(self.alloc);
        self.skip_space();
        if self.skip(b']') {
            return Ok(Value::Array(elements));
        }
        loop {
            elements.push(self.value(depth)?).map_err(AllocError::from)?;
            self.skip_space();
            if !self.skip(b',') {
                self.want(b']')?;
                return Ok(Value::Array(elements));
            }
        }
    }

    fn object(&mut self, depth: u32) -> Result<Value, Error> {
        self.want(b'{')?;
        self.skip_space();
        if self.skip(b'}') {
            return Ok(Value::Object);
        }
        loop {
            self.skip_space();
            self.string()?;
            self.want(b':')?;
            self.value(depth)?;
            self.skip_space();
            if !self.skip(b',') {
                self.want(b'}')?;
                return Ok(Value::Object);
            }
        }
    }

    /// Goes behind digits, of which there has to be one.
    fn digits(&mut self) -> Result<(), Error> {
        let start = self.at;
        while let Some(b'0'..=b'9') = self.next() {
            self.at += 1;
        }
        if self.at == start { Err(Error::Json) } else { Ok(()) }
    }

    fn number(&mut self) -> Result<Number, Error> {
        let start = self.at;
        let mut is_whole = !self.skip(b'-');
        if !self.skip(b'0') {
            self.digits()?;
        }
        if self.skip(b'.') {
            is_whole = false;
            self.digits()?;
        }
        if self.skip(b'e') || self.skip(b'E') {
            is_whole = false;
            let _ = self.skip(b'+') || self.skip(b'-');
            self.digits()?;
        }
        let text = &self.text[start..self.at];
        match text.parse() {
            Ok(number) if is_whole => Ok(Number::U64(number)),
            _ if text.parse::<f64>().is_ok_and(f64::is_finite) => Ok(Number::Other),
            _ => Err(Error::Json),
        }
    }

    fn string(&mut self) -> Result<String, Error> {
        if !self.skip(b'"') {
            return Err(Error::Json);
        }
        let mut string = String::new(self.alloc);
        loop {
            let rest = &self.text[self.at..];
            let end = rest.find(|c: char| c == '"' || c == '\\' || c < ' ').ok_or(Error::Json)?;
            string.push_str(&rest[..end])?;
            self.at += end;
            if self.skip(b'"') {
                return Ok(string);
            }
            if !self.skip(b'\\') {
                return Err(Error::Json);
            }
            string.push(self.escape()?)?;
        }
    }

    /// The character that an escape stands for, from behind its backslash.
    fn escape(&mut self) -> Result<char, Error> {
        let kind = self.next().ok_or(Error::Json)?;
        self.at += 1;
        match kind {
            b'"' | b'\\' | b'/' => Ok(char::from(kind)),
            b'b' => Ok('\u{8}'),
            b'f' => Ok('\u{c}'),
            b'n' => Ok('\n'),
            b'r' => Ok('\r'),
            b't' => Ok('\t'),
            b'u' => self.code_point(),
            _ => Err(Error::Json),
        }
    }

    /// Four digits, and four more where these are the first half of a pair.
    fn code_point(&mut self) -> Result<char, Error> {
        let first = self.four_digits()?;
        if !(0xd800..0xdc00).contains(&first) {
            return char::from_u32(first).ok_or(Error::Json);
        }
        if !(self.skip(b'\\') && self.skip(b'u')) {
            return Err(Error::Json);
        }
        let second = self.four_digits()?;
        if !(0xdc00..0xe000).contains(&second) {
            return Err(Error::Json);
        }
        char::from_u32(0x10000 + ((first - 0xd800) << 10) + (second - 0xdc00)).ok_or(Error::Json)
    }

    fn four_digits(&mut self) -> Result<u32, Error> {
        let digits = self.text.get(self.at..self.at + 4).ok_or(Error::Json)?;
        if !digits.bytes().all(|byte| byte.is_ascii_hexdigit()) {
            return Err(Error::Json);
        }
        self.at += 4;
        u32::from_str_radix(digits, 16).map_err(|_| Error::Json)
    }
}

/// A text as JSON has it.
///
/// # Errors
/// There is no memory for it.
pub(crate) fn written(alloc: Global, text: &str) -> Result<String, AllocError> {
    let mut out = String::with_capacity(alloc, text.len() + 2)?;
    out.push('"')?;
    for character in text.chars() {
        match character {
            '"' => out.push_str("\\\"")?,
            '\\' => out.push_str("\\\\")?,
            '\u{8}' => out.push_str("\\b")?,
            '\u{c}' => out.push_str("\\f")?,
            '\n' => out.push_str("\\n")?,
            '\r' => out.push_str("\\r")?,
            '\t' => out.push_str("\\t")?,
            control if control < ' ' => write!(out, "\\u{:04x}", u32::from(control))?,
            other => out.push(other)?,
        }
    }
    out.push('"')?;
    Ok(out)
}
