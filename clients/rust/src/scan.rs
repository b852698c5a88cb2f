//! A walk over the pairs of a store.

use crate::span::Left;
use crate::store::Store;
use crate::{Pair, Result, Span};
use std::collections::VecDeque;

/// How many pairs are asked for at first, and at most.
const FIRST: usize = 8;
const MOST: usize = 512;

/// A walk over the pairs of a store in the order of their keys, from both ends. It asks for many
/// pairs at a time, and for one at a time from the back. It ends after an error.
pub struct Scan<'a> {
    store: &'a Store,
    left: Left,
    /// What was answered and not met yet.
    pairs: VecDeque<Pair>,
    /// How many were asked for, and whether there are no others.
    most: usize,
    is_last: bool,
}

impl<'a> Scan<'a> {
    pub(crate) fn new(store: &'a Store, span: &Span) -> Scan<'a> {
        let (left, pairs) = (span.left(), VecDeque::new());
        Scan { store, left, pairs, most: FIRST, is_last: false }
    }

    /// The next pair of all, whatever the upper bound.
    fn first(&mut self) -> Result<Option<Pair>> {
        if self.pairs.is_empty() && !self.is_last {
            let Some(low) = self.left.low.clone() else {
                return Ok(None);
            };
            self.pairs = self.store.first_pairs(&low, self.most)?.into();
            self.is_last = self.pairs.len() < self.most;
            self.most = MOST.min(2 * self.most);
        }
        Ok(self.pairs.pop_front())
    }

    /// A pair of the walk, or its end.
    fn met(&mut self, pair: Result<Option<Pair>>) -> Option<Result<Pair>> {
        match pair {
            Ok(Some(pair)) if self.left.has(&pair.0) => Some(Ok(pair)),
            Ok(_) => {
                self.left.end();
                None
            }
            Err(error) => {
                self.left.end();
                Some(Err(error))
            }
        }
    }
}

impl Iterator for Scan<'_> {
    type Item = Result<Pair>;

    fn next(&mut self) -> Option<Result<Pair>> {
        self.left.low.as_ref()?;
        let pair = self.first();
        let met = self.met(pair);
        if let Some(Ok(pair)) = &met {
            self.left.take_first(&pair.0);
        }
        met
    }
}

impl DoubleEndedIterator for Scan<'_> {
    fn next_back(&mut self) -> Option<Result<Pair>> {
        self.left.low.as_ref()?;
        let pair = self.store.last_below(self.left.high.as_deref());
        let met = self.met(pair);
        if let Some(Ok(pair)) = &met {
            self.left.take_last(&pair.0);
        }
        met
    }
}
