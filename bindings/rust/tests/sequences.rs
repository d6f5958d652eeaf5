//! 01's 'Sequences to try', P1 to P11, as a host sees them.
mod common;
use amzighrod::{NextValue, Refused};
use common::*;

const FOUR: [amzighrod::Value; 4] = [string(1), string(2), string(3), string(4)];

#[test]
fn p1_the_array_grows_by_powers_of_two() {
    let mut memory = Memory::of_room(16, 16);
    let mut table = memory.table();
    let mut sizes = vec![];
    for n in 1..=5 {
        assert_eq!(table.set(int(n), YES), Ok(NIL));
        sizes.push(table.record().size);
    }
    assert_eq!(sizes, [1, 2, 4, 4, 8]);
}

#[test]
fn p2_p3_entries_in_the_order_set_until_growth_moves_them() {
    let mut memory = Memory::of_room(16, 16);
    let mut table = memory.table();
    sets(&mut table, &[int(3), int(2), int(1), int(4)]);
    assert_eq!((table.record().size, table.record().allowance), (0, 4));
    assert_eq!(keys(&table), [int(3), int(2), int(1), int(4)]);
    assert_eq!(table.length(), 4);
    sets(&mut table, &[int(5)]);
    assert_eq!((table.record().size, table.record().count), (8, 0));
    assert_eq!(keys(&table), [int(1), int(2), int(3), int(4), int(5)]);
}

#[test]
fn p4_p5_no_room_until_one_is_cleared() {
    let mut memory = Memory::of_room(0, 4);
    let mut table = memory.table();
    sets(&mut table, &FOUR);
    assert_eq!(table.set(string(5), YES), Err(Refused::NoRoom));
    assert_eq!(table.set(string(2), NIL), Ok(YES));
    assert_eq!(table.set(string(5), YES), Ok(NIL));
    assert_eq!(keys(&table), [string(1), string(3), string(4), string(5)]);
    assert_eq!(table.next(string(2)), NextValue::NotFound);
}

#[test]
fn p6_a_full_table_is_overwritten_in_place() {
    let mut memory = Memory::of_room(0, 4);
    let mut table = memory.table();
    sets(&mut table, &FOUR);
    assert_eq!(table.set(string(1), int(7)), Ok(YES));
    assert_eq!(keys(&table), FOUR);
    assert_eq!(table.get(string(1)), int(7));
}

#[test]
fn p7_p8_p9_zeros_nan_and_nil() {
    let mut memory = Memory::of_room(16, 16);
    let mut table = memory.table();
    sets(&mut table, &[num(-0.0)]);
    assert_eq!((table.get(int(0)), table.record().size), (YES, 0));
    assert_eq!(table.set(num(f64::NAN), NIL), Err(Refused::KeyIsNaN));
    assert_eq!(table.get(NIL), NIL);
}

#[test]
fn p10_p11_the_largest_border() {
    let mut memory = Memory::of_room(0, 64);
    let mut table = memory.table();
    assert_eq!(table.reserve(64), Ok(()));
    let mut powers: Vec<_> = (0..63).map(|k| int(1 << k)).collect();
    powers.push(LARGEST);
    sets(&mut table, &powers);
    assert_eq!(table.length(), i64::MAX as u64);
    assert_eq!(table.set(LARGEST, NIL), Ok(YES));
    assert_eq!(table.length(), 2);
}
