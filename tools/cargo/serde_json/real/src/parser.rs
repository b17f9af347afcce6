//! The parser and the writer of serde_json. Its own value has vectors, texts and maps of std, which end the process where
//! memory is refused, so it reads into ours.

use crate::value::{Error, Number, Value};
use real::Deserializer;
use rshim::alloc::{AllocError, Global};
use rshim::{String, Vec, reserve};
use serde::de::{DeserializeSeed, Deserializer as Parser, MapAccess, SeqAccess, Visitor};
use std::cell::Cell;
use std::{fmt, io};

/// What the parser wants beside room for the longest text: an error, and the digits of a float.
const SLACK: usize = 16384;

/// The value that bytes spell.
///
/// # Errors
/// `Json` where they are not JSON; there may be no memory.
pub(crate) fn read(alloc: Global, bytes: &[u8]) -> Result<Value, Error> {
    let seed = Seed { alloc, refused: &Cell::new(false) };
    // The parser copies a text with escapes, and each copy is at most twice as large as the one before.
    let room = 4 * longest_part(bytes) + SLACK;
    let parsed = reserve::within(room, || {
        let mut parser = Deserializer::from_slice(bytes);
        let value = seed.deserialize(&mut parser).ok()?;
        parser.end().ok().map(|()| value)
    })?;
    if seed.refused.get() { Err(Error::Memory) } else { parsed.ok_or(Error::Json) }
}

/// How many bytes the longest text has, or what stands between two texts.
fn longest_part(bytes: &[u8]) -> usize {
    let (mut longest, mut start, mut at) = (0, 0, 0);
    while let Some(byte) = bytes.get(at) {
        match byte {
            b'"' => {
                longest = longest.max(at - start);
                start = at + 1;
            }
            b'\\' => at += 1,
            _ => {}
        }
        at += 1;
    }
    longest.max(bytes.len() - start.min(bytes.len()))
}

/// Takes a value, and notes where memory was refused. The parser goes on then and nothing is kept, since an error of its
/// own would want memory.
#[derive(Clone, Copy)]
struct Seed<'a> {
    alloc: Global,
    refused: &'a Cell<bool>,
}

impl Seed<'_> {
    fn is_refused(self) -> bool {
        self.refused.get() || reserve::is_begun()
    }

    fn noted<T, E>(self, answer: Result<T, E>) -> Option<T> {
        if answer.is_err() {
            self.refused.set(true);
        }
        answer.ok()
    }
}

impl<'de> DeserializeSeed<'de> for Seed<'_> {
    type Value = Value;

    fn deserialize<D: Parser<'de>>(self, parser: D) -> Result<Value, D::Error> {
        parser.deserialize_any(self)
    }
}

impl<'de> Visitor<'de> for Seed<'_> {
    type Value = Value;

    fn expecting(&self, f: &mut fmt::Formatter<'_>) -> fmt::Result {
        f.write_str("a value")
    }

    fn visit_unit<E>(self) -> Result<Value, E> {
        Ok(Value::Null)
    }

    fn visit_bool<E>(self, truth: bool) -> Result<Value, E> {
        Ok(Value::Bool(truth))
    }

    fn visit_u64<E>(self, number: u64) -> Result<Value, E> {
        Ok(Value::Number(Number::U64(number)))
    }

    fn visit_i64<E>(self, _: i64) -> Result<Value, E> {
        Ok(Value::Number(Number::Other))
    }

    fn visit_f64<E>(self, _: f64) -> Result<Value, E> {
        Ok(Value::Number(Number::Other))
    }

    fn visit_str<E>(self, text: &str) -> Result<Value, E> {
        if self.is_refused() {
            return Ok(Value::Null);
        }
        let text = self.noted(String::from_str(self.alloc, text));
        Ok(text.map_or(Value::Null, Value::String))
    }

    fn visit_seq<A: SeqAccess<'de>>(self, mut elements: A) -> Result<Value, A::Error> {
        let mut kept = Vec::new(self.alloc);
        while let Some(element) = elements.next_element_seed(self)? {
            if !self.is_refused() {
                self.noted(kept.push(element));
            }
        }
        Ok(Value::Array(kept))
    }

    fn visit_map<A: MapAccess<'de>>(self, mut members: A) -> Result<Value, A::Error> {
        while members.next_key_seed(self)?.is_some() {
            members.next_value_seed(self)?;
        }
        Ok(Value::Object)
    }
}

/// A text as JSON has it.
///
/// # Errors
/// There is no memory for it.
pub(crate) fn written(alloc: Global, text: &str) -> Result<String, AllocError> {
    let mut sink = Sink { bytes: Vec::new(alloc), refused: false };
    let is_written = real::to_writer(&mut sink, text).is_ok();
    if sink.refused || !is_written {
        return Err(AllocError);
    }
    String::from_utf8(sink.bytes).map_err(|_| AllocError)
}

/// Takes what is written. Once memory was refused nothing is kept, since an error would want memory too.
struct Sink {
    bytes: Vec<u8>,
    refused: bool,
}

impl io::Write for Sink {
    fn write(&mut self, bytes: &[u8]) -> io::Result<usize> {
        self.refused = self.refused || self.bytes.extend_from_slice(bytes).is_err();
        Ok(bytes.len())
    }

    fn flush(&mut self) -> io::Result<()> {
        Ok(())
    }
}
