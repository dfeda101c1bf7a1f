//! Stand-in for the crate `oxc_index`: a vector with an index type of its own, and a count of fetches that the real one lacks.

use std::{
    cell::Cell,
    hash::{Hash, Hasher},
    marker::PhantomData,
    ops::{Index, IndexMut},
    slice, vec,
};

/// A type of indices.
pub trait Idx: Copy {
    fn from_usize(index: usize) -> Self;
    fn index(self) -> usize;
}

/// A vector indexed by `I`; equality and hash look at the elements only.
#[derive(Debug, Clone)]
pub struct IndexVec<I, T> {
    elements: Vec<T>,
    /// What a watched vector gives from the second fetch on.
    filler: Option<T>,
    /// Fetches since the watch began, if there is one.
    fetches: Cell<Option<u32>>,
    index: PhantomData<fn(I)>,
}

impl<I: Idx, T> IndexVec<I, T> {
    pub fn new() -> Self {
        Self::from(Vec::new())
    }

    pub fn with_capacity(capacity: usize) -> Self {
        Self::from(Vec::with_capacity(capacity))
    }

    /// A vector that can be watched.
    pub fn with_filler(elements: Vec<T>, filler: T) -> Self {
        IndexVec { filler: Some(filler), ..Self::from(elements) }
    }

    pub fn push(&mut self, element: T) -> I {
        self.elements.push(element);
        I::from_usize(self.elements.len() - 1)
    }

    pub fn len(&self) -> usize {
        self.elements.len()
    }

    pub fn is_empty(&self) -> bool {
        self.elements.is_empty()
    }

    pub fn get(&self, index: I) -> Option<&T> {
        self.elements.get(index.index())
    }

    pub fn iter(&self) -> slice::Iter<'_, T> {
        self.elements.iter()
    }

    pub fn indices(&self) -> impl Iterator<Item = I> + use<I, T> {
        (0..self.elements.len()).map(I::from_usize)
    }

    /// From now on only the first fetch gives an element, and fetches are counted.
    pub fn watch(&self) {
        self.fetches.set(Some(0));
    }

    /// Ends the watch and gives the number of fetches.
    pub fn unwatch(&self) -> u32 {
        self.fetches.take().expect("no watch was begun")
    }

    fn fetch_watched(&self, index: I, before: u32) -> &T {
        self.fetches.set(Some(before + 1));
        if before == 0 {
            &self.elements[index.index()]
        } else {
            self.filler.as_ref().expect("a watched vector has a filler")
        }
    }
}

impl<I: Idx, T> Default for IndexVec<I, T> {
    fn default() -> Self {
        Self::new()
    }
}

impl<I, T> From<Vec<T>> for IndexVec<I, T> {
    fn from(elements: Vec<T>) -> Self {
        IndexVec { elements, filler: None, fetches: Cell::new(None), index: PhantomData }
    }
}

impl<I, T: PartialEq> PartialEq for IndexVec<I, T> {
    fn eq(&self, other: &Self) -> bool {
        self.elements == other.elements
    }
}

impl<I, T: Eq> Eq for IndexVec<I, T> {}

impl<I, T: Hash> Hash for IndexVec<I, T> {
    fn hash<H: Hasher>(&self, state: &mut H) {
        self.elements.hash(state);
    }
}

impl<I: Idx, T> Index<I> for IndexVec<I, T> {
    type Output = T;

    fn index(&self, index: I) -> &T {
        match self.fetches.get() {
            None => &self.elements[index.index()],
            Some(before) => self.fetch_watched(index, before),
        }
    }
}

impl<I: Idx, T> IndexMut<I> for IndexVec<I, T> {
    fn index_mut(&mut self, index: I) -> &mut T {
        &mut self.elements[index.index()]
    }
}

impl<I, T> FromIterator<T> for IndexVec<I, T> {
    fn from_iter<J: IntoIterator<Item = T>>(iter: J) -> Self {
        Self::from(Vec::from_iter(iter))
    }
}

impl<I, T> IntoIterator for IndexVec<I, T> {
    type Item = T;
    type IntoIter = vec::IntoIter<T>;

    fn into_iter(self) -> Self::IntoIter {
        self.elements.into_iter()
    }
}

impl<'a, I, T> IntoIterator for &'a IndexVec<I, T> {
    type Item = &'a T;
    type IntoIter = slice::Iter<'a, T>;

    fn into_iter(self) -> Self::IntoIter {
        self.elements.iter()
    }
}

/// `index_vec![element; length]`.
#[macro_export]
macro_rules! index_vec {
    ($element:expr; $length:expr) => {
        $crate::IndexVec::from(vec![$element; $length])
    };
}

#[cfg(test)]
mod tests {
    use super::*;

    impl Idx for usize {
        fn from_usize(index: usize) -> Self {
            index
        }
        fn index(self) -> usize {
            self
        }
    }

    #[test]
    fn a_watched_vector_gives_its_filler_from_the_second_fetch_on() {
        let vector = IndexVec::<usize, _>::with_filler(vec![1, 2], 9);
        vector.watch();
        assert_eq!((vector[1], vector[2], vector[0]), (2, 9, 9));
        assert_eq!(vector.unwatch(), 3);
        assert_eq!(vector[0], 1);
    }
}
