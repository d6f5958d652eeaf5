//! Each call through the wrapper: refusals, shapes, keys that are one, bits of NaNs, walks.
mod common;
use amzighrod::{lengths, Function, NextValue, Record, Refused, Table, Value};
use common::*;

type Call = fn(&mut Table) -> Result<(), Refused>;

/// One value of each kind.
fn kinds() -> [Value; 10] {
    let (closure, callback) = (Value::Function(Function::Closure(7)), Value::Function(Function::Callback(7)));
    [NIL, YES, int(-3), num(0.5), string(7), Value::Table(7), closure, callback, Value::Thread(7), Value::UserData(u64::MAX)]
}

#[test]
fn every_refusal_changes_nothing() {
    let mut memory = Memory::of_room(2, 2);
    let mut table = memory.table();
    sets(&mut table, &[string(1), string(2)]);
    let record = table.record();
    let words = memory.words();
    let calls: [(Refused, Call); 6] = [
        (Refused::KeyIsNil, |t| t.set(NIL, YES).map(drop)),
        (Refused::KeyIsNil, |t| t.set(NIL, NIL).map(drop)),
        (Refused::KeyIsNaN, |t| t.set(num(f64::from_bits(0xFFF0_0000_DEAD_BEEF)), YES).map(drop)),
        (Refused::KeyIsNaN, |t| t.set(num(f64::NAN), NIL).map(drop)),
        (Refused::NoRoom, |t| t.set(string(3), YES).map(drop)),
        (Refused::NoRoom, |t| t.reserve(usize::MAX)),
    ];
    for (refused, call) in calls {
        let mut table = Table::over(&mut memory.array, &mut memory.entries, &mut memory.index, record).expect("a sound store");
        assert_eq!(call(&mut table), Err(refused));
        assert_eq!(table.record(), record);
        assert_eq!(memory.words(), words);
    }
}

#[test]
fn refusals_have_the_numbers_of_01() {
    let texts = [Refused::KeyIsNil, Refused::KeyIsNaN, Refused::NoRoom, Refused::WrongShape].map(|r| r.to_string());
    assert_eq!(texts, ["refused 1 (key is Nil)", "refused 2 (key is NaN)", "refused 3 (no room)", "refused 4 (wrong shape)"]);
}

#[test]
fn a_wrong_shape_is_refused_and_left_alone() {
    // half a value; half an entry; no power of two; too short; no index; too many values, entries, index words
    let wrong = [(3, 4, 2), (4, 6, 4), (4, 4, 3), (0, 16, 4), (0, 0, 0), (0, 0, 1), (131_074, 0, 2), (0, 131_076, 65_536), (0, 0, 131_072)];
    for (array, entries, index) in wrong {
        let mut memory = Memory::of_lengths(array, entries, index);
        let words = memory.words();
        let made = Table::fresh(&mut memory.array, &mut memory.entries, &mut memory.index).map(|t| t.record());
        assert_eq!(made, Err(Refused::WrongShape), "{array} {entries} {index}");
        assert_eq!(memory.words(), words);
    }
}

#[test]
fn a_right_shape_is_taken() {
    assert_eq!((lengths(0, 0), lengths(16, 5), lengths(65_536, 32_768)), ((0, 0, 2), (32, 20, 16), (131_072, 131_072, 65_536)));
    for (array, entries, index) in [(0, 0, 2), (2, 0, 65_536), (30, 20, 16), (131_072, 131_072, 65_536)] {
        let mut memory = Memory::of_lengths(array, entries, index);
        let table = memory.table();
        assert!(table.check());
        assert_eq!((table.record(), table.length(), table.iter().count()), (Record::default(), 0, 0));
        assert_eq!(memory.words(), (vec![0; array], vec![0; entries], vec![0; index]));
    }
}

#[test]
fn what_an_earlier_table_left_is_taken_and_nothing_else() {
    let mut memory = Memory::of_room(4, 4);
    let mut table = memory.table();
    sets(&mut table, &[int(1), int(2), string(1)]);
    let record = table.record();
    let Memory { array, entries, index } = &mut memory;
    assert_eq!(Table::over(array, entries, index, record).map(|t| keys(&t)), Some(vec![int(1), int(2), string(1)]));
    let Record { size, allowance, count } = record;
    let wrong = [(size + 1, allowance, count), (size, 5, count), (size, allowance, count - 1), (size, count - 1, count), (8, allowance, count)];
    for (size, allowance, count) in wrong {
        assert!(Table::over(array, entries, index, Record { size, allowance, count }).is_none(), "{size} {allowance} {count}");
    }
    index[0] ^= 1;
    assert!(Table::over(array, entries, index, record).is_none());
}

#[test]
fn equal_numbers_are_one_key() {
    let mut memory = Memory::of_room(16, 16);
    let mut table = memory.table();
    sets(&mut table, &[int(1480)]);
    assert_eq!(table.set(num(1480.0), string(2)), Ok(YES));
    assert_eq!((table.get(int(1480)), table.get(num(1480.0))), (string(2), string(2)));
    assert_eq!(table.iter().collect::<Vec<_>>(), [(int(1480), string(2))]);
    assert_eq!((table.next(num(1480.0)), table.record().count), (NextValue::Last, 1));
    sets(&mut table, &[num(1480.5), num(f64::INFINITY), string(1480), Value::Table(1480)]);
    assert_eq!(table.iter().count(), 5);
}

#[test]
fn values_of_every_kind_come_back() {
    let mut memory = Memory::of_room(0, 16);
    let mut table = memory.table();
    for key in &kinds()[1..] {
        for value in kinds() {
            let before = table.get(*key);
            assert_eq!(table.set(*key, value), Ok(before));
            assert_eq!(table.get(*key), value);
            assert!(table.check());
        }
    }
    assert_eq!(keys(&table), &kinds()[1..]);
}

#[test]
fn a_nan_keeps_its_bits() {
    let mut memory = Memory::of_room(2, 2);
    let mut table = memory.table();
    for bits in [0x7FF8_0000_0000_0000, 0x7FF8_0000_0000_0001, 0x7FF0_0000_0000_0001, 0xFFF0_0000_DEAD_BEEF, u64::MAX] {
        for key in [int(1), string(1)] {
            table.set(key, num(f64::from_bits(bits))).expect("there is room");
            let Value::Number(x) = table.get(key) else { panic!("no Number") };
            assert_eq!(x.to_bits(), bits);
            assert_eq!((table.get(num(x)), table.next(num(x))), (NIL, NextValue::NotFound));
        }
    }
}

#[test]
fn a_walk_with_clears_and_overwrites_skips_and_repeats_nothing() {
    let mut memory = Memory::of_room(8, 8);
    let mut table = memory.table();
    let all = [int(1), int(2), int(3), string(1), string(2), string(3), num(0.5)];
    sets(&mut table, &all);
    let (mut shown, mut after) = (vec![], NIL);
    while let NextValue::Found { key, value } = table.next(after) {
        shown.push((key, value));
        table.set(key, NIL).expect("a clear is never refused");
        // ahead of the walk: 3 is cleared, and s3 is overwritten
        if key == int(2) {
            table.set(num(3.0), NIL).expect("a clear is never refused");
            table.set(string(3), int(9)).expect("an overwrite is never refused");
        }
        after = key;
    }
    assert_eq!(table.next(after), NextValue::Last);
    assert_eq!(shown, [(int(1), YES), (int(2), YES), (string(1), YES), (string(2), YES), (string(3), int(9)), (num(0.5), YES)]);
    assert_eq!((table.iter().next(), table.check()), (None, true));
}

#[test]
fn an_iterator_stays_at_its_end() {
    let mut memory = Memory::of_room(2, 2);
    let mut table = memory.table();
    sets(&mut table, &[string(1)]);
    let mut iter = table.iter();
    assert_eq!((iter.next(), iter.next(), iter.next()), (Some((string(1), YES)), None, None));
    assert_eq!((&table).into_iter().count(), 1);
}

#[test]
fn reserve_makes_room_by_dropping() {
    let mut memory = Memory::of_room(0, 4);
    let mut table = memory.table();
    sets(&mut table, &[string(1), string(2), string(3), string(4)]);
    assert_eq!((table.reserve(0), table.reserve(1)), (Ok(()), Err(Refused::NoRoom)));
    table.set(string(2), NIL).expect("a clear is never refused");
    assert_eq!((table.next(string(2)), table.reserve(2)), (NextValue::Found { key: string(3), value: YES }, Err(Refused::NoRoom)));
    assert_eq!((table.reserve(1), table.next(string(2))), (Ok(()), NextValue::NotFound));
    assert_eq!(table.record(), Record { size: 0, allowance: 4, count: 3 });
}
