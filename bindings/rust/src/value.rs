//! Lua values as 01 has them, and their two words.
use crate::calls::Words;
use std::hash::{Hash, Hasher};

/// A Lua value. Handles are the host's: the same for the same object, and for the same text.
#[derive(Clone, Copy, Debug)]
pub enum Value {
    Nil,
    Boolean(bool),
    Integer(i64),
    /// A NaN keeps its bits.
    Number(f64),
    String(u64),
    Table(u64),
    Function(Function),
    Thread(u64),
    UserData(u64),
}

#[derive(Clone, Copy, Debug)]
pub enum Function {
    Closure(u64),
    Callback(u64),
}

impl Value {
    pub fn is_nil(self) -> bool {
        matches!(self, Value::Nil)
    }

    pub(crate) fn words(self) -> Words {
        let (kind, payload) = match self {
            Value::Nil => (0, 0),
            Value::Boolean(b) => (1, b as u64),
            Value::Integer(n) => (2, n as u64),
            Value::Number(x) => (3, x.to_bits()),
            Value::String(h) => (4, h),
            Value::Table(h) => (5, h),
            Value::Function(Function::Closure(h)) => (6, h),
            Value::Function(Function::Callback(h)) => (7, h),
            Value::Thread(h) => (8, h),
            Value::UserData(h) => (9, h),
        };
        Words { kind, payload }
    }

    /// The value of words that decode, as all words of a sound store do.
    pub(crate) fn of_words(words: Words) -> Value {
        let Words { kind, payload } = words;
        match kind {
            0 => Value::Nil,
            1 => Value::Boolean(payload != 0),
            2 => Value::Integer(payload as i64),
            3 => Value::Number(f64::from_bits(payload)),
            4 => Value::String(payload),
            5 => Value::Table(payload),
            6 => Value::Function(Function::Closure(payload)),
            7 => Value::Function(Function::Callback(payload)),
            8 => Value::Thread(payload),
            9 => Value::UserData(payload),
            _ => unreachable!("kind {kind} in a sound store"),
        }
    }
}

/// Equal: of the same kind and payload, a Number by its bits. Which keys are one is the table's to say: there 1480 and 1480.0 are.
impl PartialEq for Value {
    fn eq(&self, other: &Value) -> bool {
        self.words() == other.words()
    }
}

impl Eq for Value {}

impl Hash for Value {
    fn hash<H: Hasher>(&self, state: &mut H) {
        self.words().hash(state)
    }
}
