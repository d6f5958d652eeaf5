//! The calls of crates/host on words, made safe: the one module with `unsafe`. Assumes that libhost.a is what `tools/make host` wrote.
//! What each call does is said in bindings/c/amzighrod.h.

extern "C" {
    fn amzighrod_check(array: *const u64, arraywords: usize, entries: *const u64, entrywords: usize, index: *const u16, indexwords: usize, size: usize, allowance: usize, count: usize) -> bool;
    fn amzighrod_fresh(array: *mut u64, arraywords: usize, entries: *mut u64, entrywords: usize, index: *mut u16, indexwords: usize, size: *mut usize, allowance: *mut usize, count: *mut usize) -> u8;
    fn amzighrod_get(array: *const u64, arraywords: usize, entries: *const u64, entrywords: usize, index: *const u16, indexwords: usize, size: usize, allowance: usize, count: usize, keykind: u64, keypayload: u64, kind: *mut u64, payload: *mut u64) -> u8;
    fn amzighrod_set(array: *mut u64, arraywords: usize, entries: *mut u64, entrywords: usize, index: *mut u16, indexwords: usize, size: *mut usize, allowance: *mut usize, count: *mut usize, keykind: u64, keypayload: u64, valuekind: u64, valuepayload: u64, kind: *mut u64, payload: *mut u64) -> u8;
    fn amzighrod_next(array: *const u64, arraywords: usize, entries: *const u64, entrywords: usize, index: *const u16, indexwords: usize, size: usize, allowance: usize, count: usize, keykind: *mut u64, keypayload: *mut u64, kind: *mut u64, payload: *mut u64) -> u8;
    fn amzighrod_length(array: *const u64, arraywords: usize, entries: *const u64, entrywords: usize, index: *const u16, indexwords: usize, size: usize, allowance: usize, count: usize, border: *mut u64) -> u8;
    fn amzighrod_reserve(array: *mut u64, arraywords: usize, entries: *mut u64, entrywords: usize, index: *mut u16, indexwords: usize, size: *mut usize, allowance: *mut usize, count: *mut usize, n: usize) -> u8;
}

/// The sizes of a store: A values of the array in use, an allowance of M entries, E entries in use.
#[derive(Clone, Copy, Debug, Default, PartialEq, Eq)]
pub struct Record {
    pub size: usize,
    pub allowance: usize,
    pub count: usize,
}

/// A value's kind and payload.
#[derive(Clone, Copy, Debug, Default, PartialEq, Eq, Hash)]
pub(crate) struct Words {
    pub kind: u64,
    pub payload: u64,
}

/// Lent slices and their record.
#[derive(Debug)]
pub(crate) struct Store<'a> {
    pub array: &'a mut [u64],
    pub entries: &'a mut [u64],
    pub index: &'a mut [u16],
    pub record: Record,
}

/// Each answers the number of the call; the rest of the answer goes through `&mut`.
impl Store<'_> {
    pub fn check(&self) -> bool {
        let Record { size, allowance, count } = self.record;
        // Safe: pointers and lengths are those of slices, borrowed through `self` and only read.
        unsafe { amzighrod_check(self.array.as_ptr(), self.array.len(), self.entries.as_ptr(), self.entries.len(), self.index.as_ptr(), self.index.len(), size, allowance, count) }
    }

    pub fn fresh(&mut self) -> u8 {
        let Record { size, allowance, count } = &mut self.record;
        // Safe: pointers and lengths are those of slices, which `self` has alone; the three sizes are fields apart from them.
        unsafe { amzighrod_fresh(self.array.as_mut_ptr(), self.array.len(), self.entries.as_mut_ptr(), self.entries.len(), self.index.as_mut_ptr(), self.index.len(), size, allowance, count) }
    }

    pub fn get(&self, key: Words, value: &mut Words) -> u8 {
        let Record { size, allowance, count } = self.record;
        // Safe: the slices are borrowed through `self` and only read; `value` is the caller's alone.
        unsafe { amzighrod_get(self.array.as_ptr(), self.array.len(), self.entries.as_ptr(), self.entries.len(), self.index.as_ptr(), self.index.len(), size, allowance, count, key.kind, key.payload, &mut value.kind, &mut value.payload) }
    }

    pub fn set(&mut self, key: Words, value: Words, previous: &mut Words) -> u8 {
        let Record { size, allowance, count } = &mut self.record;
        // Safe: `self` has the slices alone, the three sizes are fields apart from them, and `previous` is the caller's alone.
        unsafe { amzighrod_set(self.array.as_mut_ptr(), self.array.len(), self.entries.as_mut_ptr(), self.entries.len(), self.index.as_mut_ptr(), self.index.len(), size, allowance, count, key.kind, key.payload, value.kind, value.payload, &mut previous.kind, &mut previous.payload) }
    }

    pub fn next(&self, key: &mut Words, value: &mut Words) -> u8 {
        let Record { size, allowance, count } = self.record;
        // Safe: the slices are borrowed through `self` and only read; `key` and `value` are the caller's alone, and two.
        unsafe { amzighrod_next(self.array.as_ptr(), self.array.len(), self.entries.as_ptr(), self.entries.len(), self.index.as_ptr(), self.index.len(), size, allowance, count, &mut key.kind, &mut key.payload, &mut value.kind, &mut value.payload) }
    }

    pub fn length(&self, border: &mut u64) -> u8 {
        let Record { size, allowance, count } = self.record;
        // Safe: the slices are borrowed through `self` and only read; `border` is the caller's alone.
        unsafe { amzighrod_length(self.array.as_ptr(), self.array.len(), self.entries.as_ptr(), self.entries.len(), self.index.as_ptr(), self.index.len(), size, allowance, count, border) }
    }

    pub fn reserve(&mut self, n: usize) -> u8 {
        let Record { size, allowance, count } = &mut self.record;
        // Safe: `self` has the slices alone, and the three sizes are fields apart from them.
        unsafe { amzighrod_reserve(self.array.as_mut_ptr(), self.array.len(), self.entries.as_mut_ptr(), self.entries.len(), self.index.as_mut_ptr(), self.index.len(), size, allowance, count, n) }
    }
}
