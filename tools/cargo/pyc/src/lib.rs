//! What is proved is the Rattle source of this crate (`.rt`); this crate, and all that is built of it, is tested and not
//! proved.
//!
//! Compiles Python syntax trees to stack bytecode. A tree comes as rows of JSON, or is made by hand.
//!
//! ```
//! use pyc::{Mode, compile};
//!
//! // The rows of `f()`.
//! let rows = br#"[["Name",1,1,"f"],["Call",1,1,0,[],[]],["Expr",1,1,1],["Module",[2]]]"#;
//! let code = compile(rows, "m.py", Mode::Exec, 0)?;
//! assert_eq!(code.name(), "<module>");
//! assert_eq!(code.names().collect::<Vec<_>>(), ["f"]);
//! for operation in code.operations() {
//!     println!("{:?} {}", operation.op, operation.operand);
//! }
//! # Ok::<(), pyc::Error>(())
//! ```
//!
//! Memory that is refused is [`Error::OutOfMemory`] and not the end of the process. The parser of serde_json is the one part
//! that cannot answer a refusal itself: a program that wants an answer there too makes [`Reserving`] its allocator.
#![forbid(unsafe_code)]
#![warn(missing_docs)]

mod code;
mod error;
mod names;
mod run;
pub mod tree;

pub use bitflags::Flags;
pub use code::{Code, compile, compile_tree, read};
pub use error::Error;
pub use names::{Finding, report, report_lines};
pub use py_base::{CodegenErrorType, SourceLocation};
pub use py_bytecode::{
    CodeFlags, CodeObject, CodeUnit, Constant, ConstantData, Elements, Instruction, MakeFunctionFlags, Operation,
    OperandKind, Unit,
};
pub use py_names::NameKind;
pub use py_answers::{Detail, Event, Outcome, StepValue, Trace};
pub use py_tree::{Mod, Mode};
pub use rshim::reserve::Reserving;
pub use run::{Run, step};

/// The program of the README of the workspace, as a test.
#[cfg(doctest)]
#[doc = include_str!("../../README.md")]
struct Readme;

/// What this build is, in one line.
pub const NOTE: &str = "What is proved is the Rattle source of pyc; this build of it is tested and not proved.";
