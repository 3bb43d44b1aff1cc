//! Values: a word with a mark, or with none (MACHINE.md, STORES.md).

use std::fmt;

#[derive(Clone, Copy, PartialEq, Eq, Debug)]
pub enum Value {
    Plain(u32),
    Code(u32),
    Data { word: u32, low: u32, high: u32 },
}

impl Value {
    /// Data, if the bounds fit: low below high, high at most 65,536.
    pub fn data(word: u32, low: u32, high: u32) -> Option<Value> {
        (low < high && high <= 65_536).then_some(Value::Data { word, low, high })
    }

    pub fn word(self) -> u32 {
        match self {
            Value::Plain(word) | Value::Code(word) | Value::Data { word, .. } => word,
        }
    }

    pub fn is_marked(self) -> bool {
        !matches!(self, Value::Plain(_))
    }

    pub fn is_data(self) -> bool {
        matches!(self, Value::Data { .. })
    }
}

impl fmt::Display for Value {
    fn fmt(&self, f: &mut fmt::Formatter) -> fmt::Result {
        match self {
            Value::Plain(word) => write!(f, "p:{word}"),
            Value::Code(function) => write!(f, "c:{function}"),
            Value::Data { word, low, high } => write!(f, "d:{word}:{low}:{high}"),
        }
    }
}
