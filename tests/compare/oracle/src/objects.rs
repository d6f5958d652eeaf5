//! Stand-ins for the original's types around its table. Assumes that nothing asks what an object holds, and that the host interns strings.
use crate::{Gc, Mutation, Value};
use std::{
    hash::{Hash, Hasher},
    ops::Deref,
};

macro_rules! objects {
    ($($name:ident)*) => { $(
        #[derive(Debug, Copy, Clone)]
        pub struct $name<'gc>(pub Gc<'gc, ()>);

        impl<'gc> $name<'gc> {
            pub fn into_inner(self) -> Gc<'gc, ()> {
                self.0
            }
        }

        impl PartialEq for $name<'_> {
            fn eq(&self, other: &Self) -> bool {
                Gc::ptr_eq(self.0, other.0)
            }
        }

        impl Eq for $name<'_> {}

        impl Hash for $name<'_> {
            fn hash<H: Hasher>(&self, state: &mut H) {
                Gc::as_ptr(self.0).hash(state)
            }
        }
    )* };
}

objects!(String Closure Callback Thread UserData);

impl String<'_> {
    pub fn as_bytes(&self) -> &[u8] {
        unreachable!("no string is displayed")
    }
}

#[derive(Debug, Copy, Clone)]
pub enum Function<'gc> {
    Closure(Closure<'gc>),
    Callback(Callback<'gc>),
}

pub enum Constant<S> {
    Nil,
    Boolean(bool),
    Integer(i64),
    Number(f64),
    String(S),
}

impl<S> Constant<S> {
    pub fn to_number(&self) -> Option<f64> {
        unreachable!("no value is converted")
    }

    pub fn to_integer(&self) -> Option<i64> {
        unreachable!("no value is converted")
    }
}

#[derive(Copy, Clone)]
pub struct Context<'gc>(&'gc Mutation<'gc>);

impl<'gc> Deref for Context<'gc> {
    type Target = Mutation<'gc>;

    fn deref(&self) -> &Mutation<'gc> {
        self.0
    }
}

pub trait IntoValue<'gc> {
    fn into_value(self, context: Context<'gc>) -> Value<'gc>;
}
