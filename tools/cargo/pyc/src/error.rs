//! Why there is no code.

use py_base::{CodegenError, CodegenErrorType, SourceLocation};
use py_codefile::{ReadCodeError, WriteCodeError};
use py_rows::RowsError;
use py_scope::SymbolTableError;
use py_verify::Flaw;
use rshim::alloc::AllocError;
use std::error;
use std::fmt;

/// Why there is no code, no report or no run.
#[derive(Debug)]
#[non_exhaustive]
pub enum Error {
    /// The tree is refused.
    Refused {
        /// Why.
        why: CodegenErrorType,
        /// Where the statement or expression at fault begins; none where the whole tree is at fault.
        location: Option<SourceLocation>,
        /// The path that was handed in.
        path: String,
    },
    /// The bytes are not the rows of a tree.
    Rows(RowsError),
    /// The rows have 2^26 bytes or more.
    TooLong,
    /// The bytes are no file of code.
    File(ReadCodeError),
    /// The code in a file does not verify.
    Unverified(Flaw),
    /// The code has no file.
    Unwritable(WriteCodeError),
    /// The text is no script of answers.
    Script,
    /// Memory was refused. This says nothing of the input.
    OutOfMemory,
}

impl Error {
    /// Where the fault stands in the source, if it has a place.
    ///
    /// ```
    /// let error = pyc::compile(br#"[["Break",3,5],["Module",[0]]]"#, "b.py", pyc::Mode::Exec, 0).unwrap_err();
    /// assert_eq!(error.location(), Some(pyc::SourceLocation::at(3, 5)));
    /// ```
    pub fn location(&self) -> Option<SourceLocation> {
        match self {
            Error::Refused { location, .. } => *location,
            _ => None,
        }
    }

    /// The status that the program ends with: 1 refused, 2 wrong words, 3 wrong input, 6 no memory.
    ///
    /// ```
    /// let error = pyc::compile(b"no rows", "m.py", pyc::Mode::Exec, 0).unwrap_err();
    /// assert_eq!(error.status(), 3);
    /// ```
    pub fn status(&self) -> u8 {
        match self {
            Error::Refused { .. } => 1,
            Error::Script => 2,
            Error::Rows(_) | Error::TooLong | Error::File(_) | Error::Unverified(_) => 3,
            Error::Unwritable(_) | Error::OutOfMemory => 6,
        }
    }

    /// The refusal of a tree, or that there was no memory.
    pub(crate) fn refused(error: CodegenError, path: Option<&str>) -> Error {
        match error.error {
            CodegenErrorType::OutOfMemory => Error::OutOfMemory,
            why => Error::Refused {
                why,
                location: error.location,
                path: path.map_or_else(|| error.source_path.into(), str::to_owned),
            },
        }
    }
}

impl fmt::Display for Error {
    fn fmt(&self, f: &mut fmt::Formatter<'_>) -> fmt::Result {
        match self {
            Error::Refused { why, location: Some(location), path } => write!(f, "{path}:{location}: {why}"),
            Error::Refused { why, location: None, path } => write!(f, "{path}: {why}"),
            Error::Rows(error) => write!(f, "no rows of a tree: {error}"),
            Error::TooLong => f.write_str("no rows of a tree: too long"),
            Error::File(error) => write!(f, "no file of code: byte {error}"),
            Error::Unverified(flaw) => write!(f, "the code does not verify: {:?} at unit {}", flaw.kind, flaw.unit),
            Error::Unwritable(error) => write!(f, "the code has no file: {error}"),
            Error::Script => f.write_str("no script of answers"),
            Error::OutOfMemory => f.write_str("out of memory"),
        }
    }
}

impl error::Error for Error {
    fn source(&self) -> Option<&(dyn error::Error + 'static)> {
        match self {
            Error::Refused { why, .. } => Some(why),
            Error::Rows(error) => Some(error),
            Error::File(error) => Some(error),
            Error::Unwritable(error) => Some(error),
            _ => None,
        }
    }
}

impl From<CodegenError> for Error {
    fn from(error: CodegenError) -> Error {
        Error::refused(error, None)
    }
}

impl From<SymbolTableError> for Error {
    fn from(error: SymbolTableError) -> Error {
        let path = py_base::Text::from_string(rshim::String::new(rshim::alloc::Global));
        Error::refused(symboltable::into_codegen_error(error, path), None)
    }
}

impl From<RowsError> for Error {
    fn from(error: RowsError) -> Error {
        match error {
            RowsError::OutOfMemory => Error::OutOfMemory,
            error => Error::Rows(error),
        }
    }
}

impl From<ReadCodeError> for Error {
    fn from(error: ReadCodeError) -> Error {
        match error {
            ReadCodeError::OutOfMemory => Error::OutOfMemory,
            error => Error::File(error),
        }
    }
}

impl From<WriteCodeError> for Error {
    fn from(error: WriteCodeError) -> Error {
        match error {
            WriteCodeError::OutOfMemory => Error::OutOfMemory,
            error => Error::Unwritable(error),
        }
    }
}

impl From<AllocError> for Error {
    fn from(_: AllocError) -> Error {
        Error::OutOfMemory
    }
}
