//! Stand-in for itertools: `zip_longest`, which mapping.rs imports.

pub enum EitherOrBoth<A, B> {
    Both(A, B),
    Left(A),
    Right(B),
}

pub struct ZipLongest<A, B> {
    left: A,
    right: B,
}

impl<A: Iterator, B: Iterator> Iterator for ZipLongest<A, B> {
    type Item = EitherOrBoth<A::Item, B::Item>;

    fn next(&mut self) -> Option<Self::Item> {
        match (self.left.next(), self.right.next()) {
            (Some(left), Some(right)) => Some(EitherOrBoth::Both(left, right)),
            (Some(left), None) => Some(EitherOrBoth::Left(left)),
            (None, Some(right)) => Some(EitherOrBoth::Right(right)),
            (None, None) => None,
        }
    }
}

pub trait Itertools: Iterator + Sized {
    fn zip_longest<B: IntoIterator>(self, other: B) -> ZipLongest<Self, B::IntoIter> {
        ZipLongest { left: self, right: other.into_iter() }
    }
}

impl<I: Iterator> Itertools for I {}
