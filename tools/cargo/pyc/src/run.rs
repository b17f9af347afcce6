//! Runs over scripts of answers.

use crate::{Code, Error};
use py_answers::{Script, Trace};
use py_step::{StepReport, run_script};
use py_tree::{Mod, Mode};
use rshim::alloc::Global;
use std::fmt;

/// What the run of a code and that of a tree do over a script. It is shown as the lines that the program writes.
pub struct Run {
    report: StepReport,
}

impl Run {
    /// What the code does.
    ///
    /// ```
    /// let tree = pyc::read(br#"[["Name",1,1,"f"],["Expr",1,1,0],["Module",[1]]]"#)?;
    /// let code = pyc::compile_tree(&tree, "m.py", pyc::Mode::Exec, 0)?;
    /// let run = pyc::step(&code, &tree, pyc::Mode::Exec, 0, "r")?;
    /// assert_eq!(run.code().events.len(), 1);
    /// # Ok::<(), pyc::Error>(())
    /// ```
    pub fn code(&self) -> &Trace {
        &self.report.code
    }

    /// What the tree does.
    ///
    /// ```
    /// let tree = pyc::read(br#"[["Name",1,1,"f"],["Expr",1,1,0],["Module",[1]]]"#)?;
    /// let code = pyc::compile_tree(&tree, "m.py", pyc::Mode::Exec, 0)?;
    /// let run = pyc::step(&code, &tree, pyc::Mode::Exec, 0, "r")?;
    /// assert!(matches!(run.tree().outcome, pyc::Outcome::Raised(_)));
    /// # Ok::<(), pyc::Error>(())
    /// ```
    pub fn tree(&self) -> &Trace {
        &self.report.tree
    }

    /// Whether both do the same.
    ///
    /// ```
    /// let tree = pyc::read(br#"[["Name",1,1,"f"],["Expr",1,1,0],["Module",[1]]]"#)?;
    /// let code = pyc::compile_tree(&tree, "m.py", pyc::Mode::Exec, 0)?;
    /// let run = pyc::step(&code, &tree, pyc::Mode::Exec, 0, "g1")?;
    /// assert!(run.agrees());
    /// # Ok::<(), pyc::Error>(())
    /// ```
    pub fn agrees(&self) -> bool {
        self.report.code == self.report.tree
    }

    /// The lines that the program writes.
    ///
    /// ```
    /// let tree = pyc::read(br#"[["Name",1,1,"f"],["Expr",1,1,0],["Module",[1]]]"#)?;
    /// let code = pyc::compile_tree(&tree, "m.py", pyc::Mode::Exec, 0)?;
    /// let run = pyc::step(&code, &tree, pyc::Mode::Exec, 0, "r")?;
    /// assert_eq!(run.lines()?, "code\nload 'f'\nraised #0.0\ntree\nload 'f'\nraised #0.0\n");
    /// # Ok::<(), pyc::Error>(())
    /// ```
    ///
    /// # Errors
    /// There is no memory for them.
    pub fn lines(&self) -> Result<String, Error> {
        Ok(self.report.to_text(Global)?.into_std())
    }
}

impl fmt::Display for Run {
    fn fmt(&self, f: &mut fmt::Formatter<'_>) -> fmt::Result {
        f.write_str(&self.lines().map_err(|_| fmt::Error)?)
    }
}

/// Runs a code and a tree over a script of answers: `gK` for K values, `d` for none, `t` and `f` for truths, `e` for the end
/// of an iterator and `r` for an exception, joined by commas.
///
/// ```
/// // The rows of `f()`.
/// let tree = pyc::read(br#"[["Name",1,1,"f"],["Call",1,1,0,[],[]],["Expr",1,1,1],["Module",[2]]]"#)?;
/// let code = pyc::compile_tree(&tree, "m.py", pyc::Mode::Exec, 0)?;
/// let run = pyc::step(&code, &tree, pyc::Mode::Exec, 0, "g1,r")?;
/// assert!(run.agrees());
/// assert_eq!(run.code().events.len(), 2);
/// assert!(matches!(run.code().outcome, pyc::Outcome::Raised(_)));
/// # Ok::<(), pyc::Error>(())
/// ```
///
/// # Errors
/// [`Error::Script`] where the text is no script; there may be no memory.
pub fn step(code: &Code, tree: &Mod, mode: Mode, level: u8, script: &str) -> Result<Run, Error> {
    let script = Script::parse(Global, script)?.ok_or(Error::Script)?;
    let report = run_script(Global, code, tree, mode, level, &script)?;
    Ok(Run { report })
}
