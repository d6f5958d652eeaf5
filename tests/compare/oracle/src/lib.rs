//! The original's raw.rs, table.rs and value.rs, which `build` puts beside this file, among stand-ins for gc_arena and for the types around.
//! Assumes that no object is followed but tables made by `Table::new`: of the others there is only an address, by which they are compared and hashed.
#![allow(deprecated)]
extern crate self as gc_arena;

pub mod objects;
pub mod value;
pub mod table {
    pub mod raw {
        include!("table/raw.rs");

        // Inside the module, since no call of the original tells them.
        impl RawTable<'_> {
            /// The array's length, how many keys the map has, cleared ones too, and for how many it has room.
            pub fn sizes(&self) -> [usize; 3] {
                [self.array.len(), self.map.len(), self.map.capacity()]
            }
        }
    }
    #[allow(clippy::module_inception)]
    mod table;
    pub use self::raw::{InvalidTableKey, NextValue};
    pub use self::table::{Iter, Table, TableInner, TableState};
}

pub use collect::Collect;
pub use objects::{Callback, Closure, Constant, Context, Function, IntoValue, String, Thread, UserData};
pub use table::{InvalidTableKey, Table};
pub use value::Value;

use std::{
    fmt,
    marker::PhantomData,
    sync::atomic::{AtomicUsize, Ordering},
};

/// What gc_arena hands to whoever may write.
pub struct Mutation<'gc>(PhantomData<&'gc ()>);

pub fn mutate<R>(f: impl for<'gc> FnOnce(&Mutation<'gc>) -> R) -> R {
    f(&Mutation(PhantomData))
}

pub struct Gc<'gc, T>(*const T, PhantomData<&'gc ()>);

impl<T> Copy for Gc<'_, T> {}

impl<T> Clone for Gc<'_, T> {
    fn clone(&self) -> Self {
        *self
    }
}

impl<T> fmt::Debug for Gc<'_, T> {
    fn fmt(&self, f: &mut fmt::Formatter<'_>) -> fmt::Result {
        self.0.fmt(f)
    }
}

impl<'gc, T> Gc<'gc, T> {
    /// An object that lives until the process ends.
    pub fn new(_: &Mutation<'gc>, object: T) -> Self {
        Gc(Box::into_raw(Box::new(object)), PhantomData)
    }

    pub fn from_address(address: u64) -> Self {
        Gc(address as usize as *const T, PhantomData)
    }

    pub fn as_ptr(gc: Self) -> *const T {
        gc.0
    }

    pub fn ptr_eq(a: Self, b: Self) -> bool {
        a.0 == b.0
    }
}

pub mod lock {
    use super::{Gc, Mutation};
    use std::cell::{Ref, RefCell, RefMut};

    #[derive(Debug)]
    pub struct RefLock<T>(RefCell<T>);

    impl<T> RefLock<T> {
        pub fn new(inner: T) -> Self {
            RefLock(RefCell::new(inner))
        }
    }

    impl<'gc, T> Gc<'gc, RefLock<T>> {
        pub fn borrow(self) -> Ref<'gc, T> {
            // made by `Gc::new`, so it is there
            unsafe { &*self.0 }.0.borrow()
        }

        pub fn borrow_mut(self, _: &Mutation<'gc>) -> RefMut<'gc, T> {
            // as above
            unsafe { &*self.0 }.0.borrow_mut()
        }
    }
}

pub mod allocator_api {
    use super::Mutation;
    use allocator_api2::alloc::{AllocError, Allocator, Global};
    use std::{alloc::Layout, marker::PhantomData, ptr::NonNull};

    /// The global allocator. Gc_arena's also counts the bytes.
    #[derive(Clone)]
    pub struct MetricsAlloc<'gc>(PhantomData<&'gc ()>);

    impl<'gc> MetricsAlloc<'gc> {
        pub fn new(_: &Mutation<'gc>) -> Self {
            MetricsAlloc(PhantomData)
        }
    }

    // each call is passed on as it came
    unsafe impl Allocator for MetricsAlloc<'_> {
        fn allocate(&self, layout: Layout) -> Result<NonNull<[u8]>, AllocError> {
            Global.allocate(layout)
        }

        unsafe fn deallocate(&self, at: NonNull<u8>, layout: Layout) {
            Global.deallocate(at, layout)
        }

        unsafe fn grow(&self, at: NonNull<u8>, old: Layout, new: Layout) -> Result<NonNull<[u8]>, AllocError> {
            Global.grow(at, old, new)
        }
    }
}

static SEED: AtomicUsize = AtomicUsize::new(0);

struct Seed;

impl ahash::random_state::RandomSource for Seed {
    fn gen_hasher_seed(&self) -> usize {
        SEED.load(Ordering::Relaxed)
    }
}

/// The tables made from now on hash by this number alone.
pub fn seed(n: usize) {
    SEED.store(n, Ordering::Relaxed);
    // refused from the second time on: the source stays
    let _ = ahash::random_state::set_random_source(Seed);
}
