//! Stand-in for the crate itertools: `tuples` alone, as far as the canvas asks for it.
//! It hands out the elements two by two; a last one without a partner is dropped.
#![no_std]

pub struct Pairs<I>(I);

impl<I: Iterator> Iterator for Pairs<I> {
    type Item = (I::Item, I::Item);

    fn next(&mut self) -> Option<Self::Item> {
        let first = self.0.next()?;
        let second = self.0.next()?;
        Some((first, second))
    }
}

pub trait Itertools: Iterator + Sized {
    fn tuples(self) -> Pairs<Self> {
        Pairs(self)
    }
}

impl<I: Iterator> Itertools for I {}
