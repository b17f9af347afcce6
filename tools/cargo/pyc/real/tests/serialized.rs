//! What the feature `serde` gives, by JSON.
#![cfg(feature = "serde")]

use pyc::{Code, Mode};
use std::error::Error;

// The rows of `f()`.
const ROWS: &[u8] = br#"[["Name",1,1,"f"],["Call",1,1,0,[],[]],["Expr",1,1,1],["Module",[2]]]"#;

#[test]
fn a_code_comes_back() -> Result<(), Box<dyn Error>> {
    let code = pyc::compile(ROWS, "m.py", Mode::Exec, 0)?;
    let json = serde_json::to_string(&code)?;
    assert_eq!(serde_json::from_str::<Vec<u8>>(&json)?, code.to_bytes()?);
    assert!(serde_json::from_str::<Code>(&json)? == code);
    Ok(())
}

#[test]
fn bytes_that_are_no_code_are_told() -> Result<(), Box<dyn Error>> {
    let error = serde_json::from_str::<Code>("[80,89]").unwrap_err();
    assert!(error.to_string().starts_with("no file of code: byte "), "{error}");
    assert!(serde_json::from_str::<Code>("{}").is_err());
    // A file whose code returns from an empty stack: its last unit is that of another instruction.
    let code = pyc::compile(br#"[["Module",[]]]"#, "m.py", Mode::Exec, 0)?;
    let mut object = code.into_inner();
    object.instructions = [pyc::CodeUnit { op: pyc::Instruction::ReturnValue, arg: 0 }].into();
    let file: Vec<u8> = py_codefile::write_code(rshim::alloc::Global, &object)?.into();
    let error = serde_json::from_str::<Code>(&serde_json::to_string(&file)?).unwrap_err();
    assert!(error.to_string().starts_with("the code does not verify: "), "{error}");
    Ok(())
}

#[test]
fn a_finding_is_a_record() -> Result<(), Box<dyn Error>> {
    let found = pyc::report(&pyc::read(ROWS)?)?;
    let json = serde_json::to_string(&found)?;
    assert_eq!(json, r#"[{"kind":"unbound","scope":[],"name":"f","other":null}]"#);
    Ok(())
}
