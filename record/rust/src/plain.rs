//! The common interface of the atomics of the standard library.
// SPDX-License-Identifier: Apache-2.0 OR MIT

use std::fmt::Debug;
use std::sync::atomic::{self, Ordering};

/// An atomic of the standard library.
pub trait Plain: Debug {
    /// What it has.
    type Value: Copy + PartialEq;
    fn load(&self, order: Ordering) -> Self::Value;
    fn store(&self, value: Self::Value, order: Ordering);
    fn swap(&self, value: Self::Value, order: Ordering) -> Self::Value;
    fn compare_exchange(
        &self,
        old: Self::Value,
        new: Self::Value,
        success: Ordering,
        failure: Ordering,
    ) -> Result<Self::Value, Self::Value>;
    fn compare_exchange_weak(
        &self,
        old: Self::Value,
        new: Self::Value,
        success: Ordering,
        failure: Ordering,
    ) -> Result<Self::Value, Self::Value>;
}

/// An atomic that can be added to. Sums wrap around.
pub trait Counter: Plain {
    fn fetch_add(&self, amount: Self::Value, order: Ordering) -> Self::Value;
    fn fetch_sub(&self, amount: Self::Value, order: Ordering) -> Self::Value;
    /// The sum, as the atomic has it afterwards.
    fn plus(value: Self::Value, amount: Self::Value) -> Self::Value;
    /// The difference, as the atomic has it afterwards.
    fn minus(value: Self::Value, amount: Self::Value) -> Self::Value;
}

/// The operations of the standard library, by their names.
macro_rules! forward {
    () => {
        fn load(&self, order: Ordering) -> Self::Value {
            self.load(order)
        }

        fn store(&self, value: Self::Value, order: Ordering) {
            self.store(value, order);
        }

        fn swap(&self, value: Self::Value, order: Ordering) -> Self::Value {
            self.swap(value, order)
        }

        fn compare_exchange(
            &self,
            old: Self::Value,
            new: Self::Value,
            success: Ordering,
            failure: Ordering,
        ) -> Result<Self::Value, Self::Value> {
            self.compare_exchange(old, new, success, failure)
        }

        fn compare_exchange_weak(
            &self,
            old: Self::Value,
            new: Self::Value,
            success: Ordering,
            failure: Ordering,
        ) -> Result<Self::Value, Self::Value> {
            self.compare_exchange_weak(old, new, success, failure)
        }
    };
}

impl Plain for atomic::AtomicBool {
    type Value = bool;
    forward!();
}

impl<T> Plain for atomic::AtomicPtr<T> {
    type Value = *mut T;
    forward!();
}

macro_rules! counter {
    ($($atomic:ident of $value:ty),*) => { $(
        impl Plain for atomic::$atomic {
            type Value = $value;
            forward!();
        }

        impl Counter for atomic::$atomic {
            fn fetch_add(&self, amount: $value, order: Ordering) -> $value {
                self.fetch_add(amount, order)
            }

            fn fetch_sub(&self, amount: $value, order: Ordering) -> $value {
                self.fetch_sub(amount, order)
            }

            fn plus(value: $value, amount: $value) -> $value {
                value.wrapping_add(amount)
            }

            fn minus(value: $value, amount: $value) -> $value {
                value.wrapping_sub(amount)
            }
        }
    )* };
}

counter!(
    AtomicU8 of u8, AtomicU16 of u16, AtomicU32 of u32, AtomicU64 of u64, AtomicUsize of usize,
    AtomicI8 of i8, AtomicI16 of i16, AtomicI32 of i32, AtomicI64 of i64, AtomicIsize of isize
);
