//! Compiling, and what comes of it.

use crate::Error;
use codegen::CompileOpts;
use codegen::compile::compile_top;
use py_base::Text;
use py_bytecode::CodeObject;
use py_tree::{Mod, Mode};
use py_verify::Verdict;
use rshim::alloc::Global;
use std::fmt;
use std::ops::Deref;

/// Rows have fewer bytes.
const MOST: usize = 1 << 26;

/// A code object that was compiled, or read and verified. What stands in it is reached by the methods of [`CodeObject`].
///
/// It is shown as its listing.
#[derive(PartialEq, Eq)]
pub struct Code {
    object: CodeObject,
}

/// The tree that rows of JSON are.
///
/// ```
/// let tree = pyc::read(br#"[["Pass",1,1],["Module",[0]]]"#)?;
/// assert!(matches!(tree, pyc::Mod::Module(_)));
/// # Ok::<(), pyc::Error>(())
/// ```
///
/// # Errors
/// [`Error::Rows`] where the bytes are not the rows of a tree, [`Error::TooLong`] from 2^26 bytes on.
pub fn read(rows: &[u8]) -> Result<Mod, Error> {
    if rows.len() >= MOST {
        return Err(Error::TooLong);
    }
    Ok(py_rows::read_rows(Global, rows)?)
}

/// Compiles the tree that rows of JSON are. The path is what the code and errors name; the level is 0, 1 without
/// assertions, or 2 without docstrings too.
///
/// ```
/// let rows = br#"[["Break",3,5],["Module",[0]]]"#;
/// let error = pyc::compile(rows, "b.py", pyc::Mode::Exec, 0).unwrap_err();
/// assert_eq!(error.to_string(), "b.py:3:5: 'break' outside loop");
/// ```
///
/// # Errors
/// Those of [`read`] and of [`compile_tree`].
pub fn compile(rows: &[u8], path: &str, mode: Mode, level: u8) -> Result<Code, Error> {
    compile_tree(&read(rows)?, path, mode, level)
}

/// Compiles a tree.
///
/// ```
/// let tree = pyc::read(br#"[["Pass",1,1],["Module",[0]]]"#)?;
/// let code = pyc::compile_tree(&tree, "m.py", pyc::Mode::Exec, 0)?;
/// assert_eq!(code.units().len(), 1);
/// # Ok::<(), pyc::Error>(())
/// ```
///
/// # Errors
/// [`Error::Refused`] with the first fault of the tree.
pub fn compile_tree(tree: &Mod, path: &str, mode: Mode, level: u8) -> Result<Code, Error> {
    let path = Text::from_string(rshim::String::from_str(Global, path)?);
    let object = compile_top(Global, tree, path, mode, CompileOpts { optimize: level })?;
    Ok(Code { object })
}

impl Code {
    /// The listing, as the program writes it.
    ///
    /// ```
    /// let code = pyc::compile(br#"[["Module",[]]]"#, "m.py", pyc::Mode::Exec, 0)?;
    /// assert!(code.listing()?.ends_with("0 1:1 ReturnConst 0 None\n"));
    /// # Ok::<(), pyc::Error>(())
    /// ```
    ///
    /// # Errors
    /// There is no memory for it.
    pub fn listing(&self) -> Result<String, Error> {
        Ok(py_listing::listing(Global, &self.object)?.into_std())
    }

    /// The file of the code. Equal codes have equal files.
    ///
    /// ```
    /// let code = pyc::compile(br#"[["Module",[]]]"#, "m.py", pyc::Mode::Exec, 0)?;
    /// let file = code.to_bytes()?;
    /// assert!(file.starts_with(b"PYCODE\0\x01"));
    /// assert!(pyc::Code::from_bytes(&file)? == code);
    /// # Ok::<(), pyc::Error>(())
    /// ```
    ///
    /// # Errors
    /// [`Error::Unwritable`] where a path has 2^32 bytes or more; there may be no memory.
    pub fn to_bytes(&self) -> Result<Vec<u8>, Error> {
        Ok(py_codefile::write_code(Global, &self.object)?.into())
    }

    /// The code that a file holds, once it is verified: it never underflows its stack, leaves its units or names what its
    /// tables have not.
    ///
    /// ```
    /// let error = pyc::Code::from_bytes(b"PYCODE").err();
    /// assert!(matches!(error, Some(pyc::Error::File(_))));
    /// ```
    ///
    /// # Errors
    /// [`Error::File`] where the bytes are no file of code, [`Error::Unverified`] where the code does not verify.
    pub fn from_bytes(file: &[u8]) -> Result<Code, Error> {
        let object = py_codefile::read_code(Global, file)?;
        match py_verify::verify(Global, &object)? {
            Verdict::Yes => Ok(Code { object }),
            Verdict::No(flaw) => Err(Error::Unverified(flaw)),
        }
    }

    /// The code object alone, which can be changed and is no longer known to be sound.
    ///
    /// ```
    /// let code = pyc::compile(br#"[["Module",[]]]"#, "m.py", pyc::Mode::Exec, 0)?;
    /// let mut object = code.into_inner();
    /// object.max_stackdepth += 1;
    /// assert_eq!(object.depth(), 1);
    /// # Ok::<(), pyc::Error>(())
    /// ```
    pub fn into_inner(self) -> CodeObject {
        self.object
    }
}

impl Deref for Code {
    type Target = CodeObject;

    fn deref(&self) -> &CodeObject {
        &self.object
    }
}

impl fmt::Display for Code {
    fn fmt(&self, f: &mut fmt::Formatter<'_>) -> fmt::Result {
        f.write_str(&self.listing().map_err(|_| fmt::Error)?)
    }
}

impl fmt::Debug for Code {
    fn fmt(&self, f: &mut fmt::Formatter<'_>) -> fmt::Result {
        let mut shown = f.debug_struct("Code");
        shown.field("name", &self.name()).field("path", &self.path()).field("units", &self.units().len());
        shown.finish_non_exhaustive()
    }
}
