//! How an atomic of the standard library is made, and how its value is taken. No other thread can
//! see it then, so neither is a step.
// SPDX-License-Identifier: Apache-2.0 OR MIT

use std::ptr;
use std::sync::atomic;

use crate::atomic::Atomic;

macro_rules! taken {
    ($value:ty) => {
        /// The value, to be changed. It is no step.
        pub fn get_mut(&mut self) -> &mut $value {
            self.plain.get_mut()
        }

        /// The value. It is no step.
        pub fn into_inner(self) -> $value {
            self.plain.into_inner()
        }
    };
}

macro_rules! whole {
    ($($atomic:ident of $value:ty),*) => { $(
        impl Atomic<atomic::$atomic> {
            taken!($value);
        }

        impl From<$value> for Atomic<atomic::$atomic> {
            fn from(value: $value) -> Self {
                Self::new(value)
            }
        }

        impl Default for Atomic<atomic::$atomic> {
            fn default() -> Self {
                Self::new(<$value>::default())
            }
        }
    )* };
}

whole!(
    AtomicU8 of u8, AtomicU16 of u16, AtomicU32 of u32, AtomicU64 of u64, AtomicUsize of usize,
    AtomicI8 of i8, AtomicI16 of i16, AtomicI32 of i32, AtomicI64 of i64, AtomicIsize of isize,
    AtomicBool of bool
);

impl<T> Atomic<atomic::AtomicPtr<T>> {
    taken!(*mut T);
}

impl<T> From<*mut T> for Atomic<atomic::AtomicPtr<T>> {
    fn from(pointer: *mut T) -> Self {
        Self::new(pointer)
    }
}

impl<T> Default for Atomic<atomic::AtomicPtr<T>> {
    fn default() -> Self {
        Self::new(ptr::null_mut())
    }
}
