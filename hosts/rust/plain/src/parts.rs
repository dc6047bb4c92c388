//! Bytes or words in parts of one length, each read and written as an array.

use std::ops::{Deref, DerefMut, Index, IndexMut};

/// What is lent in parts of K, numbered from 0; what is left behind the last whole part is in none.
#[derive(Clone, Copy)]
pub(crate) struct Parts<S, const K: usize>(S);

impl<T: 'static, S: Deref<Target = [T]>, const K: usize> Parts<S, K> {
    pub(crate) fn of(lent: S) -> Parts<S, K> {
        Parts(lent)
    }

    pub(crate) fn len(&self) -> usize {
        self.0.len() / K
    }

    #[inline(always)]
    pub(crate) fn iter(&self) -> impl ExactSizeIterator<Item = &[T; K]> {
        self.0.chunks_exact(K).map(|part| part.try_into().expect("it has K"))
    }
}

impl<T: 'static, S: Deref<Target = [T]>, const K: usize> Index<usize> for Parts<S, K> {
    type Output = [T; K];

    #[inline(always)]
    fn index(&self, place: usize) -> &[T; K] {
        let part = &self.0[K * place..K * place + K];
        part.try_into().expect("it has K")
    }
}

impl<T: 'static, S: DerefMut<Target = [T]>, const K: usize> IndexMut<usize> for Parts<S, K> {
    #[inline(always)]
    fn index_mut(&mut self, place: usize) -> &mut [T; K] {
        let part = &mut self.0[K * place..K * place + K];
        part.try_into().expect("it has K")
    }
}
