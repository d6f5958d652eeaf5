//! The two sides as the workloads see them: ours, the proved library behind its C interface, and the original's raw.rs, as the crate `oracle` builds it.
use oracle::{
    table::raw::{NextValue, RawTable},
    Gc, Mutation, String, Value,
};
use std::hint::black_box;

/// Lent room, which is ours alone.
#[derive(Clone, Copy)]
pub struct Room {
    pub values: usize,
    pub entries: usize,
    pub index: usize,
}

pub trait Side {
    type Key: Copy;
    fn integer(n: u64) -> Self::Key;
    fn number(x: f64) -> Self::Key;
    /// A handle is an address that is never followed.
    fn string(handle: u64) -> Self::Key;
    fn set(&mut self, key: Self::Key);
    fn clear(&mut self, key: Self::Key);
    fn has(&self, key: Self::Key) -> bool;
    fn length(&self) -> u64;
    fn reserve(&mut self, n: usize);
    /// The pairs of a whole walk.
    fn walk(&self) -> u64;
    fn is_sound(&self) -> bool;
}

extern "C" {
    fn amzighrod_fresh(array: *mut u64, arraywords: usize, entries: *mut u64, entrywords: usize, index: *mut u16, indexwords: usize, size: *mut usize, allowance: *mut usize, count: *mut usize) -> u8;
    fn amzighrod_check(array: *const u64, arraywords: usize, entries: *const u64, entrywords: usize, index: *const u16, indexwords: usize, size: usize, allowance: usize, count: usize) -> bool;
    fn amzighrod_get(array: *const u64, arraywords: usize, entries: *const u64, entrywords: usize, index: *const u16, indexwords: usize, size: usize, allowance: usize, count: usize, keykind: u64, keypayload: u64, kind: *mut u64, payload: *mut u64) -> u8;
    fn amzighrod_set(array: *mut u64, arraywords: usize, entries: *mut u64, entrywords: usize, index: *mut u16, indexwords: usize, size: *mut usize, allowance: *mut usize, count: *mut usize, keykind: u64, keypayload: u64, valuekind: u64, valuepayload: u64, kind: *mut u64, payload: *mut u64) -> u8;
    fn amzighrod_next(array: *const u64, arraywords: usize, entries: *const u64, entrywords: usize, index: *const u16, indexwords: usize, size: usize, allowance: usize, count: usize, keykind: *mut u64, keypayload: *mut u64, kind: *mut u64, payload: *mut u64) -> u8;
    fn amzighrod_length(array: *const u64, arraywords: usize, entries: *const u64, entrywords: usize, index: *const u16, indexwords: usize, size: usize, allowance: usize, count: usize, border: *mut u64) -> u8;
    fn amzighrod_reserve(array: *mut u64, arraywords: usize, entries: *mut u64, entrywords: usize, index: *mut u16, indexwords: usize, size: *mut usize, allowance: *mut usize, count: *mut usize, n: usize) -> u8;
}

#[derive(Clone, Copy)]
pub struct Words {
    kind: u64,
    payload: u64,
}

const NIL: Words = Words { kind: 0, payload: 0 };
const TRUE: Words = Words { kind: 1, payload: 1 };

pub struct Ours {
    array: Vec<u64>,
    entries: Vec<u64>,
    index: Vec<u16>,
    size: usize,
    allowance: usize,
    count: usize,
}

// Each call is passed the slices with their own lengths, and every pointer is to a number of this frame or of `self`.
impl Ours {
    /// All lent memory is written before, so that no page is met for the first time while the clock runs.
    pub fn new(room: Room) -> Ours {
        let mut t = Ours { array: vec![1; 2 * room.values], entries: vec![1; 4 * room.entries], index: vec![1; room.index], size: 0, allowance: 0, count: 0 };
        let n = unsafe { amzighrod_fresh(t.array.as_mut_ptr(), t.array.len(), t.entries.as_mut_ptr(), t.entries.len(), t.index.as_mut_ptr(), t.index.len(), &mut t.size, &mut t.allowance, &mut t.count) };
        assert_eq!(n, 0);
        t
    }

    fn put(&mut self, key: Words, value: Words) {
        let mut previous = NIL;
        let n = unsafe {
            amzighrod_set(self.array.as_mut_ptr(), self.array.len(), self.entries.as_mut_ptr(), self.entries.len(), self.index.as_mut_ptr(), self.index.len(), &mut self.size, &mut self.allowance, &mut self.count, key.kind, key.payload, value.kind, value.payload, &mut previous.kind, &mut previous.payload)
        };
        assert_eq!(n, 0);
        black_box(previous.kind);
    }
}

impl Side for Ours {
    type Key = Words;

    fn integer(n: u64) -> Words {
        Words { kind: 2, payload: n }
    }

    fn number(x: f64) -> Words {
        Words { kind: 3, payload: x.to_bits() }
    }

    fn string(handle: u64) -> Words {
        Words { kind: 4, payload: handle }
    }

    fn set(&mut self, key: Words) {
        self.put(key, TRUE)
    }

    fn clear(&mut self, key: Words) {
        self.put(key, NIL)
    }

    fn has(&self, key: Words) -> bool {
        let mut value = NIL;
        let n = unsafe { amzighrod_get(self.array.as_ptr(), self.array.len(), self.entries.as_ptr(), self.entries.len(), self.index.as_ptr(), self.index.len(), self.size, self.allowance, self.count, key.kind, key.payload, &mut value.kind, &mut value.payload) };
        assert_eq!(n, 0);
        value.kind != 0
    }

    fn length(&self) -> u64 {
        let mut border = 0;
        let n = unsafe { amzighrod_length(self.array.as_ptr(), self.array.len(), self.entries.as_ptr(), self.entries.len(), self.index.as_ptr(), self.index.len(), self.size, self.allowance, self.count, &mut border) };
        assert_eq!(n, 0);
        border
    }

    fn reserve(&mut self, more: usize) {
        let n = unsafe { amzighrod_reserve(self.array.as_mut_ptr(), self.array.len(), self.entries.as_mut_ptr(), self.entries.len(), self.index.as_mut_ptr(), self.index.len(), &mut self.size, &mut self.allowance, &mut self.count, more) };
        assert_eq!(n, 0);
    }

    fn walk(&self) -> u64 {
        let (mut key, mut value, mut pairs) = (NIL, NIL, 0);
        loop {
            let n = unsafe { amzighrod_next(self.array.as_ptr(), self.array.len(), self.entries.as_ptr(), self.entries.len(), self.index.as_ptr(), self.index.len(), self.size, self.allowance, self.count, &mut key.kind, &mut key.payload, &mut value.kind, &mut value.payload) };
            if n != 0 {
                assert_eq!(n, 1);
                return pairs;
            }
            black_box(value.payload);
            pairs += 1;
        }
    }

    fn is_sound(&self) -> bool {
        unsafe { amzighrod_check(self.array.as_ptr(), self.array.len(), self.entries.as_ptr(), self.entries.len(), self.index.as_ptr(), self.index.len(), self.size, self.allowance, self.count) }
    }
}

pub struct Original<'gc>(RawTable<'gc>);

impl<'gc> Original<'gc> {
    pub fn new(mc: &Mutation<'gc>) -> Self {
        Original(RawTable::new(mc))
    }
}

impl<'gc> Side for Original<'gc> {
    type Key = Value<'gc>;

    fn integer(n: u64) -> Value<'gc> {
        Value::Integer(n as i64)
    }

    fn number(x: f64) -> Value<'gc> {
        Value::Number(x)
    }

    fn string(handle: u64) -> Value<'gc> {
        Value::String(String(Gc::from_address(handle)))
    }

    fn set(&mut self, key: Value<'gc>) {
        black_box(self.0.set(key, Value::Boolean(true)).unwrap());
    }

    fn clear(&mut self, key: Value<'gc>) {
        black_box(self.0.set(key, Value::Nil).unwrap());
    }

    fn has(&self, key: Value<'gc>) -> bool {
        !self.0.get(key).is_nil()
    }

    fn length(&self) -> u64 {
        self.0.length() as u64
    }

    fn reserve(&mut self, more: usize) {
        self.0.reserve_map(more)
    }

    fn walk(&self) -> u64 {
        let (mut key, mut pairs) = (Value::Nil, 0);
        while let NextValue::Found { key: found, value } = self.0.next(key) {
            black_box(value);
            pairs += 1;
            key = found;
        }
        pairs
    }

    /// The original has no check.
    fn is_sound(&self) -> bool {
        true
    }
}
