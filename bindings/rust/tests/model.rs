//! Random calls against std's maps: what is under each key, how many keys have values, and the borders. Seeded, so that a failure comes again.
mod common;
use amzighrod::{NextValue, Refused, Table, Value};
use common::*;
use std::collections::{BTreeSet, HashMap, HashSet};

/// splitmix64.
struct Random(u64);

impl Random {
    fn word(&mut self) -> u64 {
        self.0 = self.0.wrapping_add(0x9E37_79B9_7F4A_7C15);
        let x = (self.0 ^ (self.0 >> 30)).wrapping_mul(0xBF58_476D_1CE4_E5B9);
        let x = (x ^ (x >> 27)).wrapping_mul(0x94D0_49BB_1331_11EB);
        x ^ (x >> 31)
    }

    fn below(&mut self, n: u64) -> u64 {
        self.word() % n
    }

    fn key(&mut self) -> Value {
        let n = self.below(24) as i64;
        match self.below(12) {
            0..=3 => int(n),
            4..=5 => num(n as f64),
            6 => num(n as f64 / 2.0),
            7..=8 => string(n as u64),
            9 => Value::Table(n as u64),
            10 => int([-1, i64::MIN, i64::MAX, 1 << 40][n as usize % 4]),
            _ => [NIL, num(f64::NAN), num(-0.0), num(f64::NEG_INFINITY), num(9_223_372_036_854_775_808.0)][n as usize % 5],
        }
    }

    fn value(&mut self) -> Value {
        match self.below(6) {
            0 | 1 => NIL,
            2 => num(f64::from_bits(0x7FF0_0000_0000_0001 | self.word())),
            3 => Value::Boolean(self.below(2) == 0),
            _ => int(self.word() as i64),
        }
    }
}

/// The key that a table takes a key as; None for Nil and NaN.
fn canonical(key: Value) -> Option<Value> {
    match key {
        Value::Nil => None,
        Value::Number(x) if x.is_nan() => None,
        // the cast saturates, as in the original: 2^63 becomes the largest integer
        Value::Number(x) if (x as i64) as f64 == x => Some(int(x as i64)),
        other => Some(other),
    }
}

/// The values that are not Nil, by canonical key, and those keys that are Integers, in order.
#[derive(Default)]
struct Model {
    values: HashMap<Value, Value>,
    integers: BTreeSet<i64>,
}

impl Model {
    fn get(&self, key: Value) -> Value {
        canonical(key).and_then(|key| self.values.get(&key).copied()).unwrap_or(NIL)
    }

    fn set(&mut self, key: Value, value: Value) {
        if value.is_nil() {
            self.values.remove(&key);
        } else {
            self.values.insert(key, value);
        }
        if let Value::Integer(n) = key {
            if value.is_nil() { self.integers.remove(&n) } else { self.integers.insert(n) };
        }
    }

    /// How many keys have values outside an array of this size.
    fn entries(&self, size: usize) -> usize {
        self.values.len() - self.integers.range(1..size as i64 + 1).count()
    }

    fn is_border(&self, n: u64) -> bool {
        let n = n as i64;
        (n == 0 || self.integers.contains(&n)) && (n == i64::MAX || !self.integers.contains(&(n + 1)))
    }
}

/// Whether there was no room.
fn set_agrees(table: &mut Table, model: &mut Model, entry_room: usize, key: Value, value: Value) -> bool {
    let before = model.get(key);
    match (table.set(key, value), canonical(key)) {
        (Err(refused), None) => assert_eq!(refused, if key.is_nil() { Refused::KeyIsNil } else { Refused::KeyIsNaN }),
        (Ok(previous), Some(key)) => {
            assert_eq!(previous, before);
            model.set(key, value);
        }
        // room ends where the key is new and every entry has a value
        (Err(Refused::NoRoom), Some(_)) => {
            assert!(before.is_nil() && !value.is_nil() && model.entries(table.record().size) == entry_room);
            return true;
        }
        other => panic!("{other:?} for {key:?}"),
    }
    false
}

fn reserve_agrees(table: &mut Table, model: &Model, entry_room: usize, n: usize) {
    let record = table.record();
    let fits = n <= record.allowance - record.count || model.entries(record.size) + n <= entry_room;
    assert_eq!(table.reserve(n), if fits { Ok(()) } else { Err(Refused::NoRoom) });
    assert!(!fits || table.record().allowance - table.record().count >= n);
}

fn walk_agrees(table: &Table, model: &Model) {
    let pairs: Vec<_> = table.iter().collect();
    let map: HashMap<_, _> = pairs.iter().copied().collect();
    assert_eq!((pairs.len(), &map), (map.len(), &model.values));
    if let Some((key, _)) = pairs.last() {
        assert_eq!(table.next(*key), NextValue::Last);
    }
}

/// A walk between whose steps values are overwritten and cleared: it shows each key that keeps a value, none twice, and the value of that moment.
fn disturbed_walk_agrees(table: &mut Table, model: &mut Model, random: &mut Random) {
    let start: Vec<_> = table.iter().map(|(key, _)| key).collect();
    let (mut kept, mut shown, mut after) = (start.iter().copied().collect::<HashSet<_>>(), HashSet::new(), NIL);
    while let NextValue::Found { key, value } = table.next(after) {
        assert_eq!(value, model.get(key));
        assert!(shown.insert(key));
        let (other, value) = (start[random.below(start.len() as u64) as usize], random.value());
        // a key that was cleared may have no place by now, so only one with a value is set
        if !model.get(other).is_nil() {
            assert_eq!(table.set(other, value), Ok(model.get(other)));
            model.set(other, value);
        }
        if model.get(other).is_nil() {
            kept.remove(&other);
        }
        after = key;
    }
    assert_eq!(table.next(after), NextValue::Last);
    assert!(kept.is_subset(&shown));
}

/// How many sets found no room.
fn run(seed: u64, values: usize, entries: usize) -> usize {
    let mut memory = Memory::of_room(values, entries);
    let (mut table, mut model, mut random, mut full) = (memory.table(), Model::default(), Random(seed), 0);
    for _ in 0..400 {
        let (key, value, n) = (random.key(), random.value(), random.below(8) as usize);
        match random.below(16) {
            0..=9 => full += usize::from(set_agrees(&mut table, &mut model, entries, key, value)),
            10..=12 => assert_eq!(table.get(key), model.get(key)),
            13 => assert!(model.is_border(table.length())),
            14 => reserve_agrees(&mut table, &model, entries, n),
            _ if n < 4 => disturbed_walk_agrees(&mut table, &mut model, &mut random),
            _ => walk_agrees(&table, &model),
        }
        assert!(table.check());
    }
    walk_agrees(&table, &model);
    full
}

#[test]
fn random_calls_agree_with_std_maps() {
    // room that is enough, room that ends, no room for an entry, and rooms that are no power of two
    for (values, entries, ends) in [(64, 64, false), (0, 8, true), (8, 0, true), (5, 20, true), (64, 6, true)] {
        let full: usize = (0..60).map(|seed| run(seed, values, entries)).sum();
        assert_eq!(full > 0, ends, "{values} {entries}");
    }
}
