//! Answers traces by the original's table. Standard input, for each trace: a 32-bit number for the hashing, the 32-bit length of the records, and 01's trace records, each of them right.
//! Four kinds more: 6 walks by the original's `Iter` and is answered by the replies of the `next` calls that it makes; 7 answers the sizes, three 64-bit numbers; 8 is `reserve_array` (32-bit n); 9 collects an object, which must have no value in the table. The n of a reserve may also have 64 bits.
//! Standard output, for each trace: a 32-bit length and the replies.
//! Where the table panics, a record of kind 512 with the message is the last.
mod addresses;

use addresses::Addresses;
use oracle::{Callback, Closure, Function, Gc, InvalidTableKey, Mutation, String, Table, Thread, UserData, Value};
use oracle::{mutate, seed, table::NextValue};
use std::{
    any::Any,
    io::{Read, Write},
    panic::{catch_unwind, set_hook, AssertUnwindSafe},
};

const REPLY: u16 = 256;
const WALK: u16 = 6;
const NEXT: u16 = 4;
const SIZES: u16 = 7;
const RESERVE_ARRAY: u16 = 8;
const COLLECT: u16 = 9;
const PANIC: u16 = 512;

fn payload(bytes: &[u8]) -> u64 {
    u64::from_le_bytes(bytes[1..9].try_into().unwrap())
}

fn value<'gc>(objects: &mut Addresses, bytes: &[u8]) -> Value<'gc> {
    let (kind, payload) = (bytes[0], payload(bytes));
    match kind {
        0 => return Value::Nil,
        1 => return Value::Boolean(payload == 1),
        2 => return Value::Integer(payload as i64),
        3 => return Value::Number(f64::from_bits(payload)),
        _ => {}
    }
    let address = objects.address((kind, payload));
    match kind {
        4 => Value::String(String(Gc::from_address(address))),
        5 => Value::Table(Table::from_inner(Gc::from_address(address))),
        6 => Value::Function(Function::Closure(Closure(Gc::from_address(address)))),
        7 => Value::Function(Function::Callback(Callback(Gc::from_address(address)))),
        8 => Value::Thread(Thread(Gc::from_address(address))),
        9 => Value::UserData(UserData(Gc::from_address(address))),
        kind => panic!("no value is of kind {kind}"),
    }
}

fn handle<T>(objects: &Addresses, object: Gc<'_, T>) -> u64 {
    objects.handle(Gc::as_ptr(object) as usize as u64)
}

fn put(out: &mut Vec<u8>, objects: &Addresses, value: Value<'_>) {
    let (kind, payload) = match value {
        Value::Nil => (0, 0),
        Value::Boolean(b) => (1, b as u64),
        Value::Integer(i) => (2, i as u64),
        Value::Number(x) => (3, x.to_bits()),
        Value::String(s) => (4, handle(objects, s.into_inner())),
        Value::Table(t) => (5, handle(objects, t.into_inner())),
        Value::Function(Function::Closure(c)) => (6, handle(objects, c.into_inner())),
        Value::Function(Function::Callback(c)) => (7, handle(objects, c.into_inner())),
        Value::Thread(t) => (8, handle(objects, t.into_inner())),
        Value::UserData(u) => (9, handle(objects, u.into_inner())),
    };
    out.push(kind);
    out.extend_from_slice(&u64::to_le_bytes(payload));
}

fn put_record(out: &mut Vec<u8>, kind: u16, body: &[u8]) {
    out.extend_from_slice(&(body.len() as u16 + 2).to_le_bytes());
    out.extend_from_slice(&kind.to_le_bytes());
    out.extend_from_slice(body);
}

fn put_pair(out: &mut Vec<u8>, objects: &Addresses, key: Value<'_>, value: Value<'_>) {
    out.push(0);
    put(out, objects, key);
    put(out, objects, value);
}

fn walk(objects: &Addresses, table: Table<'_>, out: &mut Vec<u8>) {
    for (key, value) in table.iter() {
        let mut body = Vec::new();
        put_pair(&mut body, objects, key, value);
        put_record(out, REPLY + NEXT, &body);
    }
    put_record(out, REPLY + NEXT, &[1]);
}

fn put_set(out: &mut Vec<u8>, objects: &Addresses, answer: Result<Value<'_>, InvalidTableKey>) {
    let (refusal, previous) = match answer {
        Ok(previous) => (0, previous),
        Err(InvalidTableKey::IsNil) => (1, Value::Nil),
        Err(InvalidTableKey::IsNaN) => (2, Value::Nil),
    };
    out.push(refusal);
    put(out, objects, previous);
}

// the body of the reply to any call but a walk
fn reply<'gc>(mc: &Mutation<'gc>, objects: &mut Addresses, table: Table<'gc>, kind: u16, body: &[u8]) -> Vec<u8> {
    let mut out = Vec::new();
    match kind {
        1 => {
            let answer = table.get_value(value(objects, body));
            put(&mut out, objects, answer);
        }
        2 => {
            let answer = table.set_value(mc, value(objects, body), value(objects, &body[9..]));
            put_set(&mut out, objects, answer);
        }
        3 => out.extend_from_slice(&table.length().to_le_bytes()),
        NEXT => match table.next(value(objects, body)) {
            NextValue::Found { key, value } => put_pair(&mut out, objects, key, value),
            NextValue::Last => out.push(1),
            NextValue::NotFound => out.push(2),
        },
        5 => {
            table.into_inner().borrow_mut(mc).raw_table.reserve_map(whole(body));
            out.push(0);
        }
        SIZES => {
            for size in table.into_inner().borrow().raw_table.sizes() {
                out.extend_from_slice(&(size as u64).to_le_bytes());
            }
        }
        RESERVE_ARRAY => {
            table.into_inner().borrow_mut(mc).raw_table.reserve_array(number(body).0);
            out.push(0);
        }
        COLLECT => {
            objects.collect((body[0], payload(body)));
            out.push(0);
        }
        kind => panic!("no call is of kind {kind}"),
    }
    out
}

fn message(panic: &(dyn Any + Send)) -> &str {
    let text = panic.downcast_ref::<&str>().copied();
    text.or_else(|| panic.downcast_ref::<std::string::String>().map(|s| s.as_str())).unwrap_or("a panic with no message")
}

fn answer(mc: &Mutation<'_>, mut trace: &[u8]) -> Vec<u8> {
    let (table, mut objects, mut out) = (Table::new(mc), Addresses::default(), Vec::new());
    while !trace.is_empty() {
        let (size, rest) = trace.split_at(2);
        let (record, rest) = rest.split_at(u16::from_le_bytes(size.try_into().unwrap()) as usize);
        let kind = u16::from_le_bytes(record[..2].try_into().unwrap());
        trace = rest;
        if kind == WALK {
            walk(&objects, table, &mut out);
            continue;
        }
        match catch_unwind(AssertUnwindSafe(|| reply(mc, &mut objects, table, kind, &record[2..]))) {
            Ok(body) => put_record(&mut out, REPLY + kind, &body),
            Err(panic) => {
                put_record(&mut out, PANIC, message(&*panic).as_bytes());
                break;
            }
        }
    }
    out
}

fn number(bytes: &[u8]) -> (usize, &[u8]) {
    let (number, rest) = bytes.split_at(4);
    (u32::from_le_bytes(number.try_into().unwrap()) as usize, rest)
}

// of 32 or 64 bits, as many as there are
fn whole(bytes: &[u8]) -> usize {
    bytes.iter().rev().fold(0, |n, byte| n << 8 | *byte as usize)
}

fn main() {
    let mut input = Vec::new();
    std::io::stdin().read_to_end(&mut input).expect("standard input");
    // a panic is an answer here
    set_hook(Box::new(|_| {}));
    let (mut rest, mut out) = (&input[..], Vec::new());
    while !rest.is_empty() {
        let (hashing, after) = number(rest);
        let (length, after) = number(after);
        let (trace, after) = after.split_at(length);
        seed(hashing);
        let replies = mutate(|mc| answer(mc, trace));
        out.extend_from_slice(&(replies.len() as u32).to_le_bytes());
        out.extend_from_slice(&replies);
        rest = after;
    }
    std::io::stdout().write_all(&out).expect("standard output");
}
