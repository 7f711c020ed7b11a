//! Atomics that note themselves.
// SPDX-License-Identifier: Apache-2.0 OR MIT

use std::fmt;
use std::sync::atomic::{self, Ordering};

use crate::current::{self, Name, Turn};
use crate::moves::{Step, Word};
use crate::plain::{Counter, Plain};

/// An atomic of the standard library, with the same operations. In a seeded run another thread may
/// have its turn before each of them. If it is marked as a [`Word`] of the lock, each operation is
/// also noted, with what it found and left.
///
/// ```
/// use lockreplay_record::{AtomicBool, AtomicU32, Word};
///
/// struct TicketLock {
///     next_ticket: AtomicU32,
///     now_serving: AtomicU32,
/// }
///
/// static LOCK: TicketLock = TicketLock {
///     next_ticket: AtomicU32::new(0).noted(Word::NextTicket),
///     now_serving: AtomicU32::new(0).noted(Word::NowServing),
/// };
///
/// /// It is the opposite of the published flag.
/// static GRANTED: AtomicBool = AtomicBool::new(false)
///     .noted_as(Word::Locked, |granted| u64::from(!granted));
/// # let _ = (&LOCK.next_ticket, &LOCK.now_serving, &GRANTED);
/// ```
pub struct Atomic<A: Plain> {
    pub(crate) plain: A,
    name: Name<A::Value>,
}

/// A number of 8 bits.
pub type AtomicU8 = Atomic<atomic::AtomicU8>;
/// A number of 16 bits.
pub type AtomicU16 = Atomic<atomic::AtomicU16>;
/// A number of 32 bits.
pub type AtomicU32 = Atomic<atomic::AtomicU32>;
/// A number of 64 bits.
pub type AtomicU64 = Atomic<atomic::AtomicU64>;
/// A number as wide as a pointer.
pub type AtomicUsize = Atomic<atomic::AtomicUsize>;
/// A number of 8 bits with a sign. It is noted as the number that has the same bits.
pub type AtomicI8 = Atomic<atomic::AtomicI8>;
/// A number of 16 bits with a sign.
pub type AtomicI16 = Atomic<atomic::AtomicI16>;
/// A number of 32 bits with a sign.
pub type AtomicI32 = Atomic<atomic::AtomicI32>;
/// A number of 64 bits with a sign.
pub type AtomicI64 = Atomic<atomic::AtomicI64>;
/// A number as wide as a pointer, with a sign.
pub type AtomicIsize = Atomic<atomic::AtomicIsize>;
/// A flag; `true` is noted as 1.
pub type AtomicBool = Atomic<atomic::AtomicBool>;
/// A pointer. It is noted as 0 for nil, and as j + 1 for one into thread j's
/// [`own_record`](crate::own_record).
pub type AtomicPtr<T> = Atomic<atomic::AtomicPtr<T>>;

/// How an atomic begins.
macro_rules! constructors {
    ($value:ty, $plain:expr, $value_of:expr) => {
        /// An atomic that is not noted. It is a place where threads are switched.
        #[must_use]
        pub const fn new(value: $value) -> Self {
            Atomic { plain: $plain(value), name: Name::none($value_of) }
        }

        /// Its operations are noted as operations on this word.
        #[must_use]
        pub const fn noted(self, word: Word) -> Self {
            Atomic { name: self.name.on(word), ..self }
        }

        /// The same, for values that are not those of the word in a trace: a pointer's value is 0
        /// for nil and j + 1 for thread j's record, a flag's 0 or 1.
        #[must_use]
        pub const fn noted_as(self, word: Word, value_of: fn($value) -> u64) -> Self {
            Atomic { name: Name::of(word, value_of), ..self }
        }
    };
}

/// Operations that change a word by a value. On a word of the lock each is noted as a swap, with
/// what it left.
macro_rules! changes {
    ($value:ty; $($name:ident $what:literal $left:expr),*) => { $(
        #[doc = concat!("Makes the value ", $what, ", and returns what it found.")]
        #[track_caller]
        pub fn $name(&self, value: $value, order: Ordering) -> $value {
            let left: fn($value, $value) -> $value = $left;
            self.change(|plain| plain.$name(value, order), |found| left(found, value))
        }
    )* };
}

macro_rules! number {
    ($($atomic:ident of $value:ty as $bits:ty),*) => { $(
        impl Atomic<atomic::$atomic> {
            constructors!($value, atomic::$atomic::new, |value| value as $bits as u64);
            changes!($value;
                fetch_and "the bitwise and with another" |found, value| found & value,
                fetch_nand "the negated bitwise and with another" |found, value| !(found & value),
                fetch_or "the bitwise or with another" |found, value| found | value,
                fetch_xor "the bitwise exclusive or with another" |found, value| found ^ value,
                fetch_max "the greater of it and another" |found, value| found.max(value),
                fetch_min "the lesser of it and another" |found, value| found.min(value)
            );
        }
    )* };
}

number!(
    AtomicU8 of u8 as u8, AtomicU16 of u16 as u16, AtomicU32 of u32 as u32,
    AtomicU64 of u64 as u64, AtomicUsize of usize as usize, AtomicI8 of i8 as u8,
    AtomicI16 of i16 as u16, AtomicI32 of i32 as u32, AtomicI64 of i64 as u64,
    AtomicIsize of isize as usize
);

impl Atomic<atomic::AtomicBool> {
    constructors!(bool, atomic::AtomicBool::new, |value| value as u64);
    changes!(bool;
        fetch_and "the and with another" |found, value| found & value,
        fetch_nand "the negated and with another" |found, value| !(found & value),
        fetch_or "the or with another" |found, value| found | value,
        fetch_xor "the exclusive or with another" |found, value| found ^ value
    );
}

impl<T> Atomic<atomic::AtomicPtr<T>> {
    constructors!(*mut T, atomic::AtomicPtr::new, |pointer| current::value_of(pointer as usize));
}

impl<A: Plain> Atomic<A> {
    /// A load.
    #[track_caller]
    pub fn load(&self, order: Ordering) -> A::Value {
        let (turn, owner) = self.begin(false);
        let found = self.plain.load(order);
        self.end(&turn, owner, false, |word| [Step::read(word, self.shown(found))]);
        found
    }

    /// A load that is no step of the lock, so it is not noted. Another thread may have its turn
    /// before it, as before each operation: a lock may decide by what it finds. In an
    /// [`operation`](crate::operation) it is a part of that. For an assertion, or for a look that
    /// the published algorithm does not make.
    #[track_caller]
    pub fn peek(&self, order: Ordering) -> A::Value {
        let _turn = current::turn(false);
        current::touch(self.address(), false);
        let found = self.plain.load(order);
        current::looked(self.address());
        found
    }

    /// A store.
    #[track_caller]
    pub fn store(&self, value: A::Value, order: Ordering) {
        let (turn, owner) = self.begin(true);
        // The pointer's record is looked up first: afterwards another thread may have it.
        let left = self.value(&turn, value);
        self.plain.store(value, order);
        self.end(&turn, owner, true, |word| [Step::write(word, left)]);
    }

    /// A swap.
    #[track_caller]
    pub fn swap(&self, value: A::Value, order: Ordering) -> A::Value {
        let (turn, owner) = self.begin(true);
        let left = self.value(&turn, value);
        let found = self.plain.swap(value, order);
        let changed = found != value;
        self.end(&turn, owner, changed, |word| {
            [Step::swap(word, self.shown(found)).with_left(left)]
        });
        found
    }

    /// A compare-and-swap.
    ///
    /// # Errors
    ///
    /// The value that it found, if that was not `old`.
    #[track_caller]
    pub fn compare_exchange(
        &self,
        old: A::Value,
        new: A::Value,
        success: Ordering,
        failure: Ordering,
    ) -> Result<A::Value, A::Value> {
        let (turn, owner) = self.begin(true);
        let left = self.value(&turn, new);
        let result = self.plain.compare_exchange(old, new, success, failure);
        self.note_exchange(&turn, owner, result, left);
        result
    }

    /// A compare-and-swap that may fail spuriously. Such a failure is no step, and is not noted.
    ///
    /// # Errors
    ///
    /// The value that it found, if it did not write.
    #[track_caller]
    pub fn compare_exchange_weak(
        &self,
        old: A::Value,
        new: A::Value,
        success: Ordering,
        failure: Ordering,
    ) -> Result<A::Value, A::Value> {
        let (turn, owner) = self.begin(true);
        let left = self.value(&turn, new);
        let result = self.plain.compare_exchange_weak(old, new, success, failure);
        if result == Err(old) {
            current::unnoted(self.address(), false);
        } else {
            self.note_exchange(&turn, owner, result, left);
        }
        result
    }

    /// Loads, and tries to store the new value, until no other thread comes between. Each try is an
    /// operation of its own.
    ///
    /// # Errors
    ///
    /// The value that it found, if the function gave `None`.
    #[track_caller]
    pub fn fetch_update(
        &self,
        success: Ordering,
        failure: Ordering,
        mut left: impl FnMut(A::Value) -> Option<A::Value>,
    ) -> Result<A::Value, A::Value> {
        let mut found = self.load(failure);
        while let Some(new) = left(found) {
            match self.compare_exchange_weak(found, new, success, failure) {
                Ok(old) => return Ok(old),
                Err(other) => found = other,
            }
        }
        Err(found)
    }

    /// A change that is noted as a swap.
    #[track_caller]
    fn change(
        &self,
        make: impl FnOnce(&A) -> A::Value,
        left: impl FnOnce(A::Value) -> A::Value,
    ) -> A::Value {
        let (turn, owner) = self.begin(true);
        let found = make(&self.plain);
        let left = left(found);
        self.end(&turn, owner, found != left, |word| {
            [Step::swap(word, self.shown(found)).with_left(self.shown(left))]
        });
        found
    }

    fn note_exchange(
        &self,
        turn: &Turn,
        owner: Option<usize>,
        result: Result<A::Value, A::Value>,
        left: u64,
    ) {
        self.end(turn, owner, result.is_ok(), |word| match result {
            Ok(found) => [Step::cas(word, true).with_found(self.shown(found)).with_left(left)],
            Err(found) => [Step::cas(word, false).with_found(self.shown(found))],
        });
    }

    fn shown(&self, value: A::Value) -> u64 {
        self.name.value(value)
    }

    fn address(&self) -> usize {
        (self as *const Self).cast::<u8>() as usize
    }

    /// The value in a trace, if it is needed.
    fn value(&self, turn: &Turn, value: A::Value) -> u64 {
        if turn.is_recorded() && self.name.word().is_some() {
            self.shown(value)
        } else {
            0
        }
    }

    /// Lets other threads go first. The record that has the word is looked up before the operation:
    /// afterwards its thread may use another one.
    #[track_caller]
    fn begin(&self, writes: bool) -> (Turn, Option<usize>) {
        let turn = current::turn_of_atomic(self.name.word().is_some());
        current::touch(self.address(), writes);
        let owner = match self.name.word() {
            Some(Word::Next | Word::Locked) => current::other_owner_of(self.address()),
            _ => None,
        };
        (turn, owner)
    }

    /// Notes the operation's steps, if it is one on a word of the lock.
    fn end<const N: usize>(
        &self,
        turn: &Turn,
        owner: Option<usize>,
        changed: bool,
        steps: impl FnOnce(Word) -> [Step; N],
    ) {
        match self.name.word() {
            _ if !turn.is_recorded() => {}
            None => current::unnoted(self.address(), changed),
            Some(word) => {
                for step in steps(word) {
                    turn.note(owner.map_or(step, |owner| step.of(owner)));
                }
            }
        }
    }
}

impl<A: Counter> Atomic<A> {
    /// A fetch-and-add. On the served ticket it is the two steps of a release, a read and a write.
    #[track_caller]
    pub fn fetch_add(&self, amount: A::Value, order: Ordering) -> A::Value {
        let (turn, owner) = self.begin(true);
        let found = self.plain.fetch_add(amount, order);
        self.note_sum(&turn, owner, found, A::plus(found, amount));
        found
    }

    /// A fetch-and-subtract. It is noted as [`fetch_add`](Atomic::fetch_add) is, with what it left.
    #[track_caller]
    pub fn fetch_sub(&self, amount: A::Value, order: Ordering) -> A::Value {
        let (turn, owner) = self.begin(true);
        let found = self.plain.fetch_sub(amount, order);
        self.note_sum(&turn, owner, found, A::minus(found, amount));
        found
    }

    fn note_sum(&self, turn: &Turn, owner: Option<usize>, found: A::Value, left: A::Value) {
        let changed = found != left;
        if self.name.word() == Some(Word::NowServing) {
            self.end(turn, owner, changed, |word| {
                [Step::read(word, self.shown(found)), Step::write(word, self.shown(left))]
            });
        } else {
            self.end(turn, owner, changed, |word| {
                [Step::add(word, self.shown(found)).with_left(self.shown(left))]
            });
        }
    }
}

impl<A: Plain> fmt::Debug for Atomic<A> {
    fn fmt(&self, out: &mut fmt::Formatter<'_>) -> fmt::Result {
        self.plain.fmt(out)
    }
}
