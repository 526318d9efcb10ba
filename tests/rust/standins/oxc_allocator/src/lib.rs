//! Stand-in: boxes and vectors of the standard library under the crate's names, and a store for strings.

use std::{
    cell::RefCell,
    marker::PhantomData,
    mem,
    ops::{Deref, DerefMut},
};

/// Keeps what strings and lists of pieces point to until the case is done.
#[derive(Default)]
pub struct Allocator {
    strings: RefCell<Vec<Box<str>>>,
    lists: RefCell<Vec<Box<[(usize, usize)]>>>,
}

impl Allocator {
    pub fn keep_str(&self, text: &str) -> &str {
        let kept: Box<str> = text.into();
        let pointer: *const str = &*kept;
        self.strings.borrow_mut().push(kept);
        // SAFETY: the box's contents stay where they are, and are dropped with `self` alone.
        unsafe { &*pointer }
    }

    pub fn keep_list(&self, list: Vec<(usize, usize)>) -> &[(usize, usize)] {
        let kept = list.into_boxed_slice();
        let pointer: *const [(usize, usize)] = &*kept;
        self.lists.borrow_mut().push(kept);
        // SAFETY: as above.
        unsafe { &*pointer }
    }
}

pub trait GetAllocator<'a> {
    fn allocator(&self) -> &'a Allocator;
}

impl<'a> GetAllocator<'a> for &'a Allocator {
    fn allocator(&self) -> &'a Allocator {
        self
    }
}

#[derive(Debug)]
pub struct ArenaBox<'a, T>(Box<T>, PhantomData<&'a ()>);

impl<'a, T> ArenaBox<'a, T> {
    pub fn new_in<A: GetAllocator<'a>>(value: T, _allocator: &A) -> Self {
        Self(Box::new(value), PhantomData)
    }

    pub fn unbox(self) -> T {
        *self.0
    }
}

impl<T> Deref for ArenaBox<'_, T> {
    type Target = T;
    fn deref(&self) -> &T {
        &self.0
    }
}

impl<T> DerefMut for ArenaBox<'_, T> {
    fn deref_mut(&mut self) -> &mut T {
        &mut self.0
    }
}

#[derive(Debug)]
pub struct ArenaVec<'a, T>(Vec<T>, PhantomData<&'a ()>);

impl<'a, T> ArenaVec<'a, T> {
    pub fn new_in<A: GetAllocator<'a>>(_allocator: &A) -> Self {
        Self(Vec::new(), PhantomData)
    }

    pub fn with_capacity_in<A: GetAllocator<'a>>(capacity: usize, _allocator: &A) -> Self {
        Self(Vec::with_capacity(capacity), PhantomData)
    }

    pub fn from_iter_in<A: GetAllocator<'a>>(
        items: impl IntoIterator<Item = T>,
        _allocator: &A,
    ) -> Self {
        Self(items.into_iter().collect(), PhantomData)
    }
}

impl<T> Deref for ArenaVec<'_, T> {
    type Target = Vec<T>;
    fn deref(&self) -> &Vec<T> {
        &self.0
    }
}

impl<T> DerefMut for ArenaVec<'_, T> {
    fn deref_mut(&mut self) -> &mut Vec<T> {
        &mut self.0
    }
}

impl<T> IntoIterator for ArenaVec<'_, T> {
    type Item = T;
    type IntoIter = std::vec::IntoIter<T>;
    fn into_iter(self) -> Self::IntoIter {
        self.0.into_iter()
    }
}

impl<'b, T> IntoIterator for &'b ArenaVec<'_, T> {
    type Item = &'b T;
    type IntoIter = std::slice::Iter<'b, T>;
    fn into_iter(self) -> Self::IntoIter {
        self.0.iter()
    }
}

pub trait ReplaceWith: Default {
    fn replace_with(&mut self, make: impl FnOnce(Self) -> Self) {
        *self = make(mem::take(self));
    }
}
