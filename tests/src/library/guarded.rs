//! An array between guard entries.

use std::fmt::Debug;

/// Guard entries on each side.
const GUARDS: usize = 64;

/// What a guard entry holds.
pub trait Guard: Copy + Debug + Default + PartialEq {
    const GUARD: Self;
}

impl Guard for u8 {
    const GUARD: u8 = 0xA5;
}

impl Guard for u16 {
    const GUARD: u16 = 0xA5C3;
}

impl Guard for usize {
    const GUARD: usize = 0xA5C3_A5C3;
}

/// An array on the heap with guard entries before and after it.
#[derive(Clone, PartialEq, Eq)]
pub struct Guarded<T> {
    entries: Box<[T]>,
}

impl<T: Guard> Guarded<T> {
    /// An array of zeros.
    pub fn new(length: usize) -> Guarded<T> {
        let mut entries = vec![T::GUARD; GUARDS + length + GUARDS].into_boxed_slice();
        entries[GUARDS..GUARDS + length].fill(T::default());
        Guarded { entries }
    }

    /// A copy of an array.
    pub fn of(array: &[T]) -> Guarded<T> {
        let mut guarded = Guarded::new(array.len());
        guarded.inner_mut().copy_from_slice(array);
        guarded
    }

    /// The array itself.
    pub fn inner(&self) -> &[T] {
        &self.entries[GUARDS..self.entries.len() - GUARDS]
    }

    /// The array itself, to write.
    pub fn inner_mut(&mut self) -> &mut [T] {
        let end = self.entries.len() - GUARDS;
        &mut self.entries[GUARDS..end]
    }

    /// Where the array begins, to lend it.
    pub fn pointer(&mut self) -> *mut T {
        self.inner_mut().as_mut_ptr()
    }

    /// Whether every guard entry is as it was made.
    pub fn guards_hold(&self) -> bool {
        let guards = [T::GUARD; GUARDS];
        self.entries.starts_with(&guards) && self.entries.ends_with(&guards)
    }

    /// Asserts that this lent array is as given, with its guards.
    pub fn assert_kept(&self, given: &[T], what: &str) {
        assert!(self.guards_hold(), "outside the {what} {given:?}");
        assert_eq!(self.inner(), given, "{what} that are only read");
    }
}
