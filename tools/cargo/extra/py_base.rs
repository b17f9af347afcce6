//! What Rust has and Rattle's sources do without: texts, lists and places of what is plain.

use crate::{List, OneIndexed, SourceLocation, Text};
use std::fmt;
use std::slice::Iter;

impl From<String> for Text {
    fn from(text: String) -> Text {
        Text::from_string(text.into())
    }
}

impl From<&str> for Text {
    fn from(text: &str) -> Text {
        Text::from(String::from(text))
    }
}

impl From<Text> for String {
    fn from(text: Text) -> String {
        text.into_string().into_std()
    }
}

impl fmt::Display for Text {
    fn fmt(&self, f: &mut fmt::Formatter<'_>) -> fmt::Result {
        f.pad(self.as_str())
    }
}

impl<T> From<Vec<T>> for List<T> {
    fn from(items: Vec<T>) -> List<T> {
        List::from_vec(items.into())
    }
}

impl<T, const N: usize> From<[T; N]> for List<T> {
    fn from(items: [T; N]) -> List<T> {
        List::from(Vec::from(items))
    }
}

impl<T> From<List<T>> for Vec<T> {
    fn from(list: List<T>) -> Vec<T> {
        list.into_vec().into_std()
    }
}

impl<T> FromIterator<T> for List<T> {
    fn from_iter<I: IntoIterator<Item = T>>(items: I) -> List<T> {
        List::from(Vec::from_iter(items))
    }
}

impl<'a, T> IntoIterator for &'a List<T> {
    type Item = &'a T;
    type IntoIter = Iter<'a, T>;

    fn into_iter(self) -> Iter<'a, T> {
        self.as_slice().iter()
    }
}

impl SourceLocation {
    /// A row and a column, each counted from 1; 0 is told as 1.
    ///
    /// ```
    /// assert_eq!(py_base::SourceLocation::at(3, 5).to_string(), "3:5");
    /// ```
    pub fn at(row: u32, column: u32) -> SourceLocation {
        SourceLocation {
            row: OneIndexed::new(row).unwrap_or(OneIndexed::MIN),
            column: OneIndexed::new(column).unwrap_or(OneIndexed::MIN),
        }
    }
}

/// `ROW:COLUMN`.
impl fmt::Display for SourceLocation {
    fn fmt(&self, f: &mut fmt::Formatter<'_>) -> fmt::Result {
        write!(f, "{}:{}", self.row.get(), self.column.get())
    }
}
