//! Stands in for the crate: the names that utiles-core asks for. Nothing is read or written: each call is an error.
use std::collections::BTreeMap;

pub type Map<K, V> = BTreeMap<K, V>;

#[derive(Debug)]
pub struct Error;

#[derive(Debug, Clone)]
pub enum Value {
    Text(String),
    Array(Vec<Value>),
    Object(Map<String, Value>),
}

impl Value {
    pub fn as_u64(&self) -> Option<u64> {
        None
    }

    pub fn is_array(&self) -> bool {
        self.as_array().is_some()
    }

    pub fn as_array(&self) -> Option<&Vec<Value>> {
        None
    }
}

impl From<String> for Value {
    fn from(text: String) -> Self {
        Self::Text(text)
    }
}

impl std::fmt::Display for Value {
    fn fmt(&self, f: &mut std::fmt::Formatter<'_>) -> std::fmt::Result {
        write!(f, "{self:?}")
    }
}

pub fn from_str<T>(_: &str) -> Result<T, Error> {
    Err(Error)
}

pub fn from_value<T>(_: Value) -> Result<T, Error> {
    Err(Error)
}

pub fn to_string<T>(_: &T) -> Result<String, Error> {
    Err(Error)
}
