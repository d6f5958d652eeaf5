//! A Lua table over memory that the host lends, through the proved calls of crates/host.
//!
//! A [`Table`] holds three slices for as long as it lives, so that nothing else changes their words, and its store is always sound: it is made
//! by [`Table::fresh`], or by [`Table::over`] from words that the check says yes to, and every call leaves it sound. So a read is never refused.
#![deny(unsafe_code)]

#[allow(unsafe_code)]
mod calls;
mod value;

use calls::{Store, Words};
use std::{error::Error, fmt, iter::FusedIterator};

pub use calls::Record;
pub use value::{Function, Value};

/// Why a call was refused, by the paper's number. Nothing was changed. The calls' 15, for words that are no value's, no [`Value`] meets.
#[derive(Clone, Copy, Debug, PartialEq, Eq)]
pub enum Refused {
    KeyIsNil = 1,
    KeyIsNaN = 2,
    NoRoom = 3,
    WrongShape = 4,
}

impl Refused {
    fn unless_done(number: u8) -> Result<(), Refused> {
        match number {
            0 => Ok(()),
            1 => Err(Refused::KeyIsNil),
            2 => Err(Refused::KeyIsNaN),
            3 => Err(Refused::NoRoom),
            4 => Err(Refused::WrongShape),
            _ => unreachable!("no call with a Value's words answers {number}"),
        }
    }
}

impl fmt::Display for Refused {
    fn fmt(&self, f: &mut fmt::Formatter) -> fmt::Result {
        let why = match self {
            Refused::KeyIsNil => "key is Nil",
            Refused::KeyIsNaN => "key is NaN",
            Refused::NoRoom => "no room",
            Refused::WrongShape => "wrong shape",
        };
        write!(f, "refused {} ({why})", *self as u8)
    }
}

impl Error for Refused {}

/// What [`Table::next`] answers.
#[derive(Clone, Copy, Debug, PartialEq, Eq)]
pub enum NextValue {
    Found { key: Value, value: Value },
    Last,
    NotFound,
}

/// The least lengths of array, entries and index that have room for so many values and entries.
pub const fn lengths(values: usize, entries: usize) -> (usize, usize, usize) {
    let index = (2 * entries).next_power_of_two();
    (2 * values, 4 * entries, if index < 2 { 2 } else { index })
}

/// A table in lent words.
///
/// ```
/// # use amzighrod::{NextValue, Refused, Table, Value};
/// let (mut array, mut entries, mut index) = ([0; 8], [0; 16], [0; 8]); // room for 4 values and 4 entries
/// let mut table = Table::fresh(&mut array, &mut entries, &mut index)?; // or Refused::WrongShape
/// table.set(Value::Integer(1480), Value::String(1))?;                  // the value that was there, or Refused
/// assert_eq!(table.get(Value::Number(1480.0)), Value::String(1));
/// let mut after = Value::Nil;
/// while let NextValue::Found { key, .. } = table.next(after) {
///     table.set(key, Value::Nil)?; // a walk may clear what it has seen
///     after = key;
/// }
/// # Ok::<(), Refused>(())
/// ```
///
/// While it lives, nothing else writes to the slices:
///
/// ```compile_fail,E0506
/// # use amzighrod::{Table, Value};
/// let (mut array, mut entries, mut index) = ([0; 8], [0; 16], [0; 8]);
/// let table = Table::fresh(&mut array, &mut entries, &mut index).unwrap();
/// array[0] = 1;
/// table.get(Value::Nil);
/// ```
#[derive(Debug)]
pub struct Table<'a> {
    store: Store<'a>,
}

impl<'a> Table<'a> {
    /// An empty table. Whatever the slices held is set to 0, unless their lengths make a wrong shape: array words 2 a value, at most 65,536
    /// values; entry words 4 an entry, at most 32,768 entries; index words a power of two, from 2 to 65,536 and at least twice the entries.
    pub fn fresh(array: &'a mut [u64], entries: &'a mut [u64], index: &'a mut [u16]) -> Result<Table<'a>, Refused> {
        let mut store = Store { array, entries, index, record: Record::default() };
        Refused::unless_done(store.fresh())?;
        Ok(Table { store })
    }

    /// The table that an earlier one left in these slices with this record, or None where the check says that they hold no table.
    pub fn over(array: &'a mut [u64], entries: &'a mut [u64], index: &'a mut [u16], record: Record) -> Option<Table<'a>> {
        let store = Store { array, entries, index, record };
        store.check().then_some(Table { store })
    }

    pub fn record(&self) -> Record {
        self.store.record
    }

    /// Whether the store is sound: always, for a host that wants to see it.
    pub fn check(&self) -> bool {
        self.store.check()
    }

    /// The value under a key; Nil where there is none, and for a key that is Nil or NaN.
    pub fn get(&self, key: Value) -> Value {
        let mut value = Words::default();
        read(self.store.get(key.words(), &mut value));
        Value::of_words(value)
    }

    /// Puts a value under a key, Nil to clear it, and answers the value that was there.
    pub fn set(&mut self, key: Value, value: Value) -> Result<Value, Refused> {
        let mut previous = Words::default();
        Refused::unless_done(self.store.set(key.words(), value.words(), &mut previous))?;
        Ok(Value::of_words(previous))
    }

    /// The pair after a key; Nil starts. Between the steps of a walk values may be read, overwritten and cleared; a new key or a reserve may
    /// make it skip, repeat or lose its place.
    pub fn next(&self, key: Value) -> NextValue {
        let (mut key, mut value) = (key.words(), Words::default());
        match self.store.next(&mut key, &mut value) {
            0 => NextValue::Found { key: Value::of_words(key), value: Value::of_words(value) },
            1 => NextValue::Last,
            2 => NextValue::NotFound,
            number => unreachable!("next of a sound store answers {number}"),
        }
    }

    /// A walk by [`Table::next`].
    pub fn iter(&self) -> Iter<'_, 'a> {
        Iter { table: self, after: Some(Value::Nil) }
    }

    /// A border: 0 or a key with a value, such that the next Integer has none; or 2^63 - 1, which has one.
    pub fn length(&self) -> u64 {
        let mut border = 0;
        read(self.store.length(&mut border));
        border
    }

    /// Allows n more entries, so that the next n new keys need no growth.
    pub fn reserve(&mut self, n: usize) -> Result<(), Refused> {
        Refused::unless_done(self.store.reserve(n))
    }
}

/// A read is refused for a wrong shape or for words that are no value's: a sound store has a right one, and a [`Value`] has a value's words.
fn read(number: u8) {
    assert_eq!(number, 0, "a read of a sound store was refused");
}

/// The pairs of a table: array by rising key, then entries by position.
#[derive(Clone, Debug)]
pub struct Iter<'t, 'a> {
    table: &'t Table<'a>,
    /// The key handed out last, Nil before the first; None at the end.
    after: Option<Value>,
}

impl Iterator for Iter<'_, '_> {
    type Item = (Value, Value);

    fn next(&mut self) -> Option<(Value, Value)> {
        match self.table.next(self.after?) {
            NextValue::Found { key, value } => {
                self.after = Some(key);
                Some((key, value))
            }
            NextValue::Last | NextValue::NotFound => {
                self.after = None;
                None
            }
        }
    }
}

impl FusedIterator for Iter<'_, '_> {}

impl<'t, 'a> IntoIterator for &'t Table<'a> {
    type Item = (Value, Value);
    type IntoIter = Iter<'t, 'a>;

    fn into_iter(self) -> Iter<'t, 'a> {
        self.iter()
    }
}
