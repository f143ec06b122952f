//! A stand-in for the crate of this name, with the one type that the upstream bank builder uses. The port does not carry
//! the builder over; this only lets its file compile unchanged, with nothing to fetch.
#![no_std]

extern crate alloc;

use core::ops::{Deref, DerefMut};

/// A list of at most `N` items. Length, indexing, iteration and `swap` are those of the slice.
#[derive(Debug, Clone, Default)]
pub struct Vec<T, const N: usize>(alloc::vec::Vec<T>);

impl<T, const N: usize> Vec<T, N> {
    pub const fn new() -> Self {
        Self(alloc::vec::Vec::new())
    }

    pub fn clear(&mut self) {
        self.0.clear();
    }

    /// Hands the item back where the list is full.
    pub fn push(&mut self, item: T) -> Result<(), T> {
        if self.0.len() >= N {
            return Err(item);
        }
        self.0.push(item);
        Ok(())
    }
}

impl<T: Clone, const N: usize> Vec<T, N> {
    /// Adds all of the items or, where they do not fit, none.
    #[allow(clippy::result_unit_err)]
    pub fn extend_from_slice(&mut self, items: &[T]) -> Result<(), ()> {
        if items.len() > N - self.0.len() {
            return Err(());
        }
        self.0.extend_from_slice(items);
        Ok(())
    }
}

impl<T, const N: usize> Deref for Vec<T, N> {
    type Target = [T];

    fn deref(&self) -> &[T] {
        &self.0
    }
}

impl<T, const N: usize> DerefMut for Vec<T, N> {
    fn deref_mut(&mut self) -> &mut [T] {
        &mut self.0
    }
}

impl<'a, T, const N: usize> IntoIterator for &'a Vec<T, N> {
    type Item = &'a T;
    type IntoIter = core::slice::Iter<'a, T>;

    fn into_iter(self) -> Self::IntoIter {
        self.0.iter()
    }
}
