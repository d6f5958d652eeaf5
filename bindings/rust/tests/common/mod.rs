//! What the tests share: memory to lend, and short names.
#![allow(dead_code)] // each test file uses some of it
use amzighrod::{lengths, Table, Value};

/// Words that are not 0, so that `fresh` has something to clear.
pub struct Memory {
    pub array: Vec<u64>,
    pub entries: Vec<u64>,
    pub index: Vec<u16>,
}

impl Memory {
    pub fn of_lengths(array: usize, entries: usize, index: usize) -> Memory {
        Memory { array: vec![!0; array], entries: vec![!0; entries], index: vec![!0; index] }
    }

    pub fn of_room(values: usize, entries: usize) -> Memory {
        let (array, entries, index) = lengths(values, entries);
        Memory::of_lengths(array, entries, index)
    }

    pub fn table(&mut self) -> Table<'_> {
        Table::fresh(&mut self.array, &mut self.entries, &mut self.index).expect("the lengths are right")
    }

    pub fn words(&self) -> (Vec<u64>, Vec<u64>, Vec<u16>) {
        (self.array.clone(), self.entries.clone(), self.index.clone())
    }
}

pub const NIL: Value = Value::Nil;
pub const YES: Value = Value::Boolean(true);
pub const LARGEST: Value = Value::Integer(i64::MAX);

pub const fn int(n: i64) -> Value {
    Value::Integer(n)
}

pub const fn num(x: f64) -> Value {
    Value::Number(x)
}

pub const fn string(h: u64) -> Value {
    Value::String(h)
}

pub fn sets(table: &mut Table, keys: &[Value]) {
    for &key in keys {
        assert_eq!(table.set(key, YES), Ok(NIL));
    }
}

pub fn keys(table: &Table) -> Vec<Value> {
    table.iter().map(|(key, _)| key).collect()
}
