//! The nodes of trees, to be made by hand: texts and lists come of strings and vectors by `into()`, and a node of any kind
//! is an [`Expr`] or a [`Stmt`] by `into()`.
//!
//! ```
//! use pyc::tree::{ExprConstant, ModExpression, SourceLocation};
//! use pyc::{Mode, compile_tree};
//!
//! let location = SourceLocation::at(1, 1);
//! let number = ExprConstant { location, value: 42.into() };
//! let tree = ModExpression { body: Box::new(number.into()) }.into();
//! let code = compile_tree(&tree, "made.py", Mode::Eval, 0)?;
//! assert_eq!(code.constants().len(), 1);
//! # Ok::<(), pyc::Error>(())
//! ```

pub use py_tree::*;
