//! Local stand-in for the crate `parking_lot`: only what alum's files and the
//! stand-ins beside it use. One word per lock; there is no waiting, only `try_*`. The word is
//! atomic, or a plain cell with the feature `lean` (one thread only, for timing).
use std::{
    cell::UnsafeCell,
    ops::{Deref, DerefMut},
};

#[cfg(not(feature = "lean"))]
mod word {
    use std::sync::atomic::{AtomicIsize, Ordering::*};
    pub struct Word(AtomicIsize);
    impl Word {
        pub const FREE: Word = Word(AtomicIsize::new(0));
        pub fn add_reader(&self) -> bool {
            let n = self.0.load(Relaxed);
            n >= 0 && self.0.compare_exchange(n, n + 1, Acquire, Relaxed).is_ok()
        }
        pub fn drop_reader(&self) { self.0.fetch_sub(1, Release); }
        pub fn take(&self) -> bool { self.0.compare_exchange(0, -1, Acquire, Relaxed).is_ok() }
        pub fn release(&self) { self.0.store(0, Release); }
    }
}
#[cfg(feature = "lean")]
mod word {
    use std::cell::Cell;
    pub struct Word(Cell<isize>);
    impl Word {
        pub const FREE: Word = Word(Cell::new(0));
        pub fn add_reader(&self) -> bool {
            let n = self.0.get();
            if n >= 0 { self.0.set(n + 1) }
            n >= 0
        }
        pub fn drop_reader(&self) { self.0.set(self.0.get() - 1); }
        pub fn take(&self) -> bool {
            let free = self.0.get() == 0;
            if free { self.0.set(-1) }
            free
        }
        pub fn release(&self) { self.0.set(0); }
    }
}
use word::Word;

/// state: 0 free, n > 0 readers, -1 one writer.
pub struct RwLock<T> {
    state: Word,
    data: UnsafeCell<T>,
}
unsafe impl<T: Send + Sync> Sync for RwLock<T> {}

pub struct RwLockReadGuard<'a, T>(&'a RwLock<T>);
pub struct RwLockWriteGuard<'a, T>(&'a RwLock<T>);
/// A write guard narrowed to a part of what the lock holds.
pub struct MappedRwLockWriteGuard<'a, U> {
    state: &'a Word,
    part: &'a mut U,
}

impl<T> RwLock<T> {
    pub fn new(data: T) -> Self { RwLock { state: Word::FREE, data: UnsafeCell::new(data) } }
    pub fn try_read(&self) -> Option<RwLockReadGuard<'_, T>> {
        if self.state.add_reader() { Some(RwLockReadGuard(self)) } else { None }
    }
    pub fn try_write(&self) -> Option<RwLockWriteGuard<'_, T>> {
        if self.state.take() { Some(RwLockWriteGuard(self)) } else { None }
    }
}
impl<'a, T> RwLockWriteGuard<'a, T> {
    pub fn map<U>(g: Self, f: impl FnOnce(&mut T) -> &mut U) -> MappedRwLockWriteGuard<'a, U> {
        let lock: &'a RwLock<T> = g.0;
        std::mem::forget(g);
        MappedRwLockWriteGuard { state: &lock.state, part: f(unsafe { &mut *lock.data.get() }) }
    }
}
impl<T> Deref for RwLockReadGuard<'_, T> {
    type Target = T;
    fn deref(&self) -> &T { unsafe { &*self.0.data.get() } }
}
impl<T> Deref for RwLockWriteGuard<'_, T> {
    type Target = T;
    fn deref(&self) -> &T { unsafe { &*self.0.data.get() } }
}
impl<T> DerefMut for RwLockWriteGuard<'_, T> {
    fn deref_mut(&mut self) -> &mut T { unsafe { &mut *self.0.data.get() } }
}
impl<U> Deref for MappedRwLockWriteGuard<'_, U> {
    type Target = U;
    fn deref(&self) -> &U { self.part }
}
impl<U> DerefMut for MappedRwLockWriteGuard<'_, U> {
    fn deref_mut(&mut self) -> &mut U { self.part }
}
impl<T> Drop for RwLockReadGuard<'_, T> {
    fn drop(&mut self) { self.0.state.drop_reader(); }
}
impl<T> Drop for RwLockWriteGuard<'_, T> {
    fn drop(&mut self) { self.0.state.release(); }
}
impl<U> Drop for MappedRwLockWriteGuard<'_, U> {
    fn drop(&mut self) { self.state.release(); }
}
