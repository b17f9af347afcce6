use super::{Error, Number, Value};
use rshim::alloc::Global;

fn read(text: &str) -> Result<Value, Error> {
    Value::from_slice(Global, text.as_bytes())
}

fn number(text: &str) -> Option<Number> {
    match read(text) {
        Ok(Value::Number(number)) => Some(number),
        _ => None,
    }
}

fn text(json: &str) -> Option<String> {
    Some(read(json).ok()?.as_str()?.to_owned())
}

#[test]
fn each_kind_of_value_is_read() -> Result<(), Error> {
    assert!(read(" null ")?.is_null());
    assert_eq!(read("true")?.as_bool(), Some(true));
    assert_eq!(read("false")?.as_bool(), Some(false));
    assert_eq!(read("\"a\"")?.as_str(), Some("a"));
    assert_eq!(read("[]")?.as_array().map(|elements| elements.len()), Some(0));
    let array = read("[1, [2], {\"a\": [3], \"b\": {}}, null]")?;
    assert_eq!(array.as_array().map(|elements| elements.len()), Some(4));
    assert_eq!(array.as_array().map(|elements| elements[0].as_u64()), Some(Some(1)));
    Ok(())
}

#[test]
fn whole_numbers_are_those_of_digits_alone() {
    assert_eq!(number("0"), Some(Number::U64(0)));
    assert_eq!(number("18446744073709551615"), Some(Number::U64(u64::MAX)));
    for json in ["18446744073709551616", "-0", "-1", "0.0", "1e0", "1E+2", "2.5e-3", "1e-400"] {
        assert_eq!(number(json), Some(Number::Other), "{json}");
    }
}

#[test]
fn a_number_is_as_large_as_a_float() {
    let digits = |first: &str| format!("{first}{}", "0".repeat(292));
    assert_eq!(number(&digits("17976931348623158")), Some(Number::Other));
    assert_eq!(read(&digits("17976931348623159")), Err(Error::Json));
    assert_eq!(number("1e308"), Some(Number::Other));
    for json in ["1e309", "-1e400", "1.8e308"] {
        assert_eq!(read(json), Err(Error::Json), "{json}");
    }
}

#[test]
fn escapes_stand_for_characters() {
    assert_eq!(text(r#""\"\\\/\b\f\n\r\t""#).as_deref(), Some("\"\\/\u{8}\u{c}\n\r\t"));
    assert_eq!(text(r#""\u00e9\u00E9\ud83d\ude00""#).as_deref(), Some("éé😀"));
    for json in [r#""\ud800""#, r#""\udc00""#, r#""\ud83dx""#, r#""\ud83d\u0041""#, r#""\u00g0""#, r#""\x41""#] {
        assert_eq!(read(json), Err(Error::Json), "{json}");
    }
}

#[test]
fn what_is_no_json_is_refused() {
    for json in [
        "", " ", "nul", "tru", "[1", "[1,]", "[,1]", "{\"a\":1,}", "{a:1}", "{\"a\"}", "01", "1.", ".5", "1e", "+1", "\"a",
        "'a'", "\"\n\"", "1 2", "[] []", "\u{b}1", "NaN", "\u{feff}1", "// x", "[1}", "{\"a\":1]", "-",
    ] {
        assert_eq!(read(json), Err(Error::Json), "{json:?}");
    }
    for bytes in [b"\"\xff\"".as_slice(), b"\"\xed\xa0\x80\"", b"\xff", b"\"\xc3\""] {
        assert_eq!(Value::from_slice(Global, bytes), Err(Error::Json), "{bytes:?}");
    }
}

#[test]
fn arrays_and_objects_nest_127_deep() {
    let arrays = |depth: usize| format!("{}{}", "[".repeat(depth), "]".repeat(depth));
    let objects = |depth: usize| format!("{}1{}", "{\"a\":".repeat(depth), "}".repeat(depth));
    for nest in [arrays, objects] {
        assert!(read(&nest(127)).is_ok());
        assert_eq!(read(&nest(128)), Err(Error::Json));
    }
}

#[test]
fn a_text_is_written_as_json() -> Result<(), rshim::alloc::AllocError> {
    let given = Value::try_from_str(Global, "a\"\\/\u{8}\u{c}\n\r\t\u{1}\u{1f}\u{7f}é😀")?;
    let written = given.to_string(Global)?;
    assert_eq!(written.as_str(), "\"a\\\"\\\\/\\b\\f\\n\\r\\t\\u0001\\u001f\u{7f}é😀\"");
    assert_eq!(read(&written), Ok(given));
    Ok(())
}
