//! Reports on the names of a tree.

use crate::Error;
use py_base::{List, Text};
use py_names::{NameItem, NameKind};
use py_tree::Mod;
use rshim::alloc::Global;

/// What is told of one name of one scope. A scope is named by the numbers of children, from 0, that lead to it from the
/// module.
#[derive(Clone, PartialEq, Eq, Debug)]
pub struct Finding {
    /// What is told.
    pub kind: NameKind,
    /// The scope.
    pub scope: Vec<u32>,
    /// The name.
    pub name: String,
    /// The scope that binds the name too, or from which it comes.
    pub other: Option<Vec<u32>>,
}

impl From<NameItem> for Finding {
    fn from(item: NameItem) -> Finding {
        Finding {
            kind: item.kind,
            scope: item.scope.into(),
            name: item.name.into(),
            other: item.other.map(Vec::from),
        }
    }
}

/// Which names of a tree's scopes are unused, unbound, shadowed or captured, scope by scope.
///
/// ```
/// // def f(x): return lambda: x
/// let rows = br#"[["Arg",1,7,"x",null],["ArgWithDefault",0,null],["Arguments",[],[1],null,[],null],
///     ["Arguments",[],[],null,[],null],["Name",1,26,"x"],["Lambda",1,18,3,4],["Return",1,11,5],
///     ["FunctionDef",1,1,"f",2,[6],[],null,[]],["Module",[7]]]"#;
/// let found = pyc::report(&pyc::read(rows)?)?;
/// assert_eq!(found.len(), 1);
/// assert_eq!((found[0].kind, found[0].name.as_str()), (pyc::NameKind::Captured, "x"));
/// assert_eq!((found[0].scope.as_slice(), found[0].other.as_deref()), ([0, 0].as_slice(), Some([0].as_slice())));
/// # Ok::<(), pyc::Error>(())
/// ```
///
/// # Errors
/// [`Error::Refused`], without a path, with the first fault of the scan.
pub fn report(tree: &Mod) -> Result<Vec<Finding>, Error> {
    let items: Vec<NameItem> = py_names::report(Global, tree)?.into();
    let mut found = Vec::new();
    found.try_reserve_exact(items.len()).map_err(|_| Error::OutOfMemory)?;
    found.extend(items.into_iter().map(Finding::from));
    Ok(found)
}

/// The same as the lines that the program writes.
///
/// ```
/// let tree = pyc::read(br#"[["Name",1,1,"f"],["Expr",1,1,0],["Module",[1]]]"#)?;
/// assert_eq!(pyc::report_lines(&tree)?, ["unbound top f"]);
/// # Ok::<(), pyc::Error>(())
/// ```
///
/// # Errors
/// Those of [`report`].
pub fn report_lines(tree: &Mod) -> Result<Vec<String>, Error> {
    let lines: List<Text> = py_names::report_lines(Global, tree)?;
    let mut texts = Vec::new();
    texts.try_reserve_exact(lines.len()).map_err(|_| Error::OutOfMemory)?;
    texts.extend(Vec::from(lines).into_iter().map(String::from));
    Ok(texts)
}
