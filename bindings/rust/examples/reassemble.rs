//! Fragments of a datagram, keyed by their offset, in memory that this program lends: reassembled, cleared while walking, and refused when
//! room ends. Writes what examples/reassemble.c does: examples/reassemble.out of the repository.
use amzighrod::{NextValue, Refused, Table, Value};

/// What the host keeps of a fragment; a table holds its place in this list as a handle.
struct Fragment {
    text: &'static str,
    bytes: i64,
}

const FRAGMENTS: [Fragment; 4] = [
    Fragment { text: "header", bytes: 1480 },
    Fragment { text: "tail", bytes: 60 },
    Fragment { text: "middle", bytes: 1480 },
    Fragment { text: "middle again", bytes: 1480 },
];

fn fragment(value: Value) -> Option<&'static Fragment> {
    match value {
        Value::String(handle) => FRAGMENTS.get(handle as usize),
        _ => None,
    }
}

fn arrive(table: &mut Table, offset: &str, key: Value, handle: usize) {
    let text = FRAGMENTS[handle].text;
    match table.set(key, Value::String(handle as u64)) {
        Err(refused) => println!("{offset} {text}: refused {}", refused as u8),
        Ok(previous) => match fragment(previous) {
            Some(Fragment { text: other, .. }) => println!("{offset} {text}: in the place of {other}"),
            None => println!("{offset} {text}"),
        },
    }
}

fn reassemble(table: &Table) {
    let mut offset = 0;
    print!("reassembled:");
    while let Some(Fragment { text, bytes }) = fragment(table.get(Value::Integer(offset))) {
        print!(" [{text}]");
        offset += bytes;
    }
    println!(" {offset} bytes");
}

/// A walk that sets between its steps goes by `next`; `iter` is for one that only reads.
fn clear(table: &mut Table) -> Result<(), Refused> {
    let mut after = Value::Nil;
    while let NextValue::Found { key, value } = table.next(after) {
        table.set(key, Value::Nil)?;
        if let (Value::Integer(offset), Some(Fragment { text, .. })) = (key, fragment(value)) {
            println!("cleared {offset} {text}");
        }
        after = key;
    }
    Ok(())
}

/// New offsets until there is no room.
fn fill(table: &mut Table) {
    let mut n = 0;
    let refused = loop {
        n += 1;
        if let Err(refused) = table.set(Value::Integer(10_000 + 1480 * n), Value::String(0)) {
            break refused;
        }
    };
    let sound = if table.check() { "sound" } else { "unsound" };
    println!("new fragment {n}: refused {}, {} entries, {sound}", refused as u8, table.record().count);
}

fn main() -> Result<(), Refused> {
    // room for 4 values and 4 entries
    let (mut array, mut entries, mut index) = ([0; 8], [0; 16], [0; 8]);
    let mut table = Table::fresh(&mut array, &mut entries, &mut index)?;
    arrive(&mut table, "0", Value::Integer(0), 0);
    arrive(&mut table, "2960", Value::Integer(2960), 1);
    arrive(&mut table, "1480", Value::Integer(1480), 2);
    arrive(&mut table, "1480.0", Value::Number(1480.0), 3);
    arrive(&mut table, "nil", Value::Nil, 0);
    reassemble(&table);
    clear(&mut table)?;
    reassemble(&table);
    fill(&mut table);
    Ok(())
}
