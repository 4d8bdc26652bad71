//! The lock of the six files. One thread runs, so a cell that counts its borrowers will do: where the lock would wait
//! for ever, the cell panics. Reads are counted, so that a walk without end is stopped.

use std::cell::{Cell, Ref, RefCell, RefMut};

thread_local! {
    static READS_LEFT: Cell<u64> = const { Cell::new(u64::MAX) };
}

/// The panic of a read that is no longer allowed.
pub struct Endless;

/// Allows so many reads from now on.
pub fn allow_reads(count: u64) {
    READS_LEFT.set(count);
}

#[derive(Debug)]
pub struct RwLock<T>(RefCell<T>);

impl<T> RwLock<T> {
    pub fn new(value: T) -> Self {
        RwLock(RefCell::new(value))
    }

    pub fn read(&self) -> Ref<'_, T> {
        match READS_LEFT.get() {
            0 => std::panic::panic_any(Endless),
            left => READS_LEFT.set(left - 1),
        }
        self.0.borrow()
    }

    pub fn write(&self) -> RefMut<'_, T> {
        self.0.borrow_mut()
    }
}
