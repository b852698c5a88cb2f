//! Keys in order, and which of them a walk has.

use crate::MAX_KEY;

/// The least key above this one; `None` above the greatest.
pub fn after(key: &[u8]) -> Option<Vec<u8>> {
    if key.len() < MAX_KEY {
        return Some([key, b"\0"].concat());
    }
    after_all_of(&key[..MAX_KEY])
}

/// The least bytes above all that begin with these; `None` if there are none.
fn after_all_of(prefix: &[u8]) -> Option<Vec<u8>> {
    let end = prefix.iter().rposition(|byte| *byte != 0xff)?;
    let mut next = prefix[..=end].to_vec();
    next[end] += 1;
    Some(next)
}

/// The least key at or above these bytes, which may be fewer or more than a key has.
pub(crate) fn lowest(low: &[u8]) -> Option<Vec<u8>> {
    match low.len() {
        0 => Some(vec![0]),
        1..=MAX_KEY => Some(low.to_vec()),
        _ => after(&low[..MAX_KEY]),
    }
}

/// Which pairs a walk has: those whose key begins with a prefix, is not below a start, and is below
/// a stop.
#[derive(Debug, Clone, Default, PartialEq, Eq)]
pub struct Span {
    prefix: Vec<u8>,
    start: Option<Vec<u8>>,
    stop: Option<Vec<u8>>,
}

impl Span {
    /// All pairs.
    pub fn all() -> Span {
        Span::default()
    }

    /// The pairs whose key begins with these bytes.
    pub fn prefix(prefix: impl AsRef<[u8]>) -> Span {
        let prefix = prefix.as_ref().to_vec();
        Span { prefix, ..Span::default() }
    }

    /// Of these pairs those whose key is at or above this one.
    pub fn start(mut self, key: impl AsRef<[u8]>) -> Span {
        self.start = Some(key.as_ref().to_vec());
        self
    }

    /// Of these pairs those whose key is below this one.
    pub fn stop(mut self, key: impl AsRef<[u8]>) -> Span {
        self.stop = Some(key.as_ref().to_vec());
        self
    }

    /// The bytes at which it begins, and those below which it is.
    pub(crate) fn bounds(&self) -> (&[u8], Option<Vec<u8>>) {
        let start = self.start.as_deref().unwrap_or_default();
        let high = [after_all_of(&self.prefix), self.stop.clone()].into_iter().flatten().min();
        (start.max(&self.prefix), high)
    }

    /// What is left of a walk at its beginning.
    pub(crate) fn left(&self) -> Left {
        let (low, high) = self.bounds();
        Left { low: lowest(low), high }
    }
}

/// What is left of a walk: the keys from `low` on, of which there are none if that is `None`, and
/// below `high`, if it is there.
#[derive(Debug, Clone)]
pub(crate) struct Left {
    pub low: Option<Vec<u8>>,
    pub high: Option<Vec<u8>>,
}

impl Left {
    pub fn has(&self, key: &[u8]) -> bool {
        match (self.low.as_deref(), self.high.as_deref()) {
            (None, _) => false,
            (Some(low), None) => low <= key,
            (Some(low), Some(high)) => low <= key && key < high,
        }
    }

    /// Takes the least key of a walk.
    pub fn take_first(&mut self, key: &[u8]) {
        self.low = after(key);
    }

    /// Takes the greatest key of a walk.
    pub fn take_last(&mut self, key: &[u8]) {
        self.high = Some(key.to_vec());
    }

    pub fn end(&mut self) {
        self.low = None;
    }
}
