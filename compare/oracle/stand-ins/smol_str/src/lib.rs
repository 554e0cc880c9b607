//! Stands for the crate smol_str: a string that is cheap to clone. Only what the four files and the loader use.

use std::borrow::Borrow;
use std::fmt;
use std::ops::Deref;
use std::sync::Arc;

#[derive(Debug, Clone, PartialEq, Eq, Hash, PartialOrd, Ord)]
pub struct SmolStr(Arc<str>);

impl SmolStr {
    pub fn new(text: impl AsRef<str>) -> Self {
        Self(Arc::from(text.as_ref()))
    }

    pub fn as_str(&self) -> &str {
        &self.0
    }
}

impl Deref for SmolStr {
    type Target = str;

    fn deref(&self) -> &str {
        &self.0
    }
}

// Maps keyed by SmolStr are asked with &str.
impl Borrow<str> for SmolStr {
    fn borrow(&self) -> &str {
        &self.0
    }
}

impl From<&str> for SmolStr {
    fn from(text: &str) -> Self {
        Self::new(text)
    }
}

impl PartialEq<str> for SmolStr {
    fn eq(&self, other: &str) -> bool {
        self.as_str() == other
    }
}

impl PartialEq<SmolStr> for str {
    fn eq(&self, other: &SmolStr) -> bool {
        self == other.as_str()
    }
}

impl PartialEq<SmolStr> for &str {
    fn eq(&self, other: &SmolStr) -> bool {
        *self == other.as_str()
    }
}

impl fmt::Display for SmolStr {
    fn fmt(&self, formatter: &mut fmt::Formatter<'_>) -> fmt::Result {
        formatter.write_str(self)
    }
}
