//! The store in a folder, read in this process: over the library that `make lib` makes.

use crate::span::{lowest, Left};
use crate::words::is_key;
use crate::{Error, Kind, Pair, Result, Span, MAX_KEY, MAX_VALUE};
use std::ffi::c_void;
use std::io;
use std::os::unix::ffi::OsStrExt;
use std::path::{Path, PathBuf};
use std::ptr;

/// The error of an answer below 0.
fn error_of(answer: i32, reason: i32) -> Error {
    let (kind, words) = match answer {
        -1 => (Kind::NoMemory, "out of memory"),
        -12 => (Kind::NoStore, "there is no store"),
        -13 => (Kind::Damaged, "the store is damaged, or is none"),
        -15 => return io::Error::from_raw_os_error(reason).into(),
        -16 => (Kind::InUse, "the folder is open to be written"),
        _ => (Kind::Refused, "the path has a byte 0, or the library is another"),
    };
    Error::new(kind, words)
}

/// One word of the library's, which owns what was read.
#[repr(C)]
#[derive(Clone, Copy)]
struct Word(*mut c_void);

extern "C" {
    fn bw_raw_open(path: *const u8, len: usize, at: *mut Word, reason: *mut i32) -> i32;
    fn bw_raw_get(
        word: *const Word,
        key: *const u8,
        key_len: usize,
        value: *mut u8,
        room: usize,
        value_len: *mut usize,
    ) -> i32;
    fn bw_raw_at_or_above(
        word: *const Word,
        key: *const u8,
        key_len: usize,
        key_out: *mut u8,
        key_room: usize,
        key_out_len: *mut usize,
        value: *mut u8,
        value_room: usize,
        value_len: *mut usize,
    ) -> i32;
    fn bw_raw_below(
        word: *const Word,
        key: *const u8,
        key_len: usize,
        key_out: *mut u8,
        key_room: usize,
        key_out_len: *mut usize,
        value: *mut u8,
        value_room: usize,
        value_len: *mut usize,
    ) -> i32;
    fn bw_raw_count(word: *const Word) -> u64;
    fn bw_raw_close(word: Word);
}

/// A call that looks for the pair next to a key.
type Look = unsafe extern "C" fn(
    *const Word,
    *const u8,
    usize,
    *mut u8,
    usize,
    *mut usize,
    *mut u8,
    usize,
    *mut usize,
) -> i32;

/// The pairs of a folder as they were when it was read.
///
/// The folder is read whole when it is opened, and let go of; one that is open to be written is
/// refused. Nothing in it is changed. Threads may share a reader.
pub struct Reader {
    word: Word,
    folder: PathBuf,
}

// The library lets any number of threads ask a reader at once, and any of them close it after that.
unsafe impl Send for Reader {}
unsafe impl Sync for Reader {}

impl Reader {
    /// Reads the store in a folder; if another process writes it, as it stood at one of its
    /// frames: the last one that was durable when this began, or a later one. No writer waits.
    ///
    /// `InUse` if ten readings of a folder that is written gave no such frame.
    pub fn open(folder: impl AsRef<Path>) -> Result<Reader> {
        let folder = folder.as_ref().to_path_buf();
        let path = folder.as_os_str().as_bytes();
        let (mut word, mut reason) = (Word(ptr::null_mut()), 0);
        let answer = unsafe { bw_raw_open(path.as_ptr(), path.len(), &mut word, &mut reason) };
        if answer != 0 {
            return Err(error_of(answer, reason));
        }
        Ok(Reader { word, folder })
    }

    /// Reads the folder once more. If that is refused, the reader stays as it was.
    pub fn refresh(&mut self) -> Result<()> {
        *self = Reader::open(&self.folder)?;
        Ok(())
    }

    /// The value of a key, if it has one.
    pub fn get(&self, key: impl AsRef<[u8]>) -> Option<Vec<u8>> {
        let (key, mut value, mut len) = (key.as_ref(), [0; MAX_VALUE], 0);
        let room = value.as_mut_ptr();
        let answer =
            unsafe { bw_raw_get(&self.word, key.as_ptr(), key.len(), room, MAX_VALUE, &mut len) };
        (answer == 0).then(|| value[..len].to_vec())
    }

    /// The values of many keys, in their order.
    pub fn get_many<I>(&self, keys: I) -> Vec<Option<Vec<u8>>>
    where
        I: IntoIterator,
        I::Item: AsRef<[u8]>,
    {
        keys.into_iter().map(|key| self.get(key)).collect()
    }

    /// What a look next to a key finds.
    fn look(&self, look: Look, key: &[u8]) -> Option<Pair> {
        let (mut found, mut its) = ([0; MAX_KEY], [0; MAX_VALUE]);
        let (mut found_len, mut its_len) = (0, 0);
        let answer = unsafe {
            look(
                &self.word,
                key.as_ptr(),
                key.len(),
                found.as_mut_ptr(),
                found.len(),
                &mut found_len,
                its.as_mut_ptr(),
                its.len(),
                &mut its_len,
            )
        };
        (answer == 0).then(|| (found[..found_len].to_vec(), its[..its_len].to_vec()))
    }

    /// The pair with the least key at or above these bytes, if there is one.
    pub fn at_or_above(&self, key: impl AsRef<[u8]>) -> Option<Pair> {
        self.look(bw_raw_at_or_above, &lowest(key.as_ref())?)
    }

    /// The pair with the greatest key at or below these bytes, if there is one.
    pub fn at_or_below(&self, key: impl AsRef<[u8]>) -> Option<Pair> {
        let key = key.as_ref();
        let key = &key[..key.len().min(MAX_KEY)];
        match self.get(key) {
            Some(value) => Some((key.to_vec(), value)),
            None => self.below(key),
        }
    }

    /// The pair with the greatest key below these bytes, if there is one.
    pub fn below(&self, key: impl AsRef<[u8]>) -> Option<Pair> {
        match key.as_ref() {
            [] => None,
            key if is_key(key) => self.look(bw_raw_below, key),
            key => self.at_or_below(key),
        }
    }

    /// How many pairs there are.
    pub fn count(&self) -> u64 {
        unsafe { bw_raw_count(&self.word) }
    }

    /// A walk over pairs in the order of their keys; `.rev()` walks the other way.
    pub fn scan(&self, span: Span) -> Pairs<'_> {
        Pairs { reader: self, left: span.left() }
    }
}

impl Drop for Reader {
    fn drop(&mut self) {
        unsafe { bw_raw_close(self.word) }
    }
}

impl<'a> IntoIterator for &'a Reader {
    type Item = Pair;
    type IntoIter = Pairs<'a>;

    fn into_iter(self) -> Pairs<'a> {
        self.scan(Span::all())
    }
}

/// A walk over the pairs of a reader in the order of their keys, from both ends.
pub struct Pairs<'a> {
    reader: &'a Reader,
    left: Left,
}

impl Iterator for Pairs<'_> {
    type Item = Pair;

    fn next(&mut self) -> Option<Pair> {
        let pair = self.reader.at_or_above(self.left.low.as_ref()?);
        let met = pair.filter(|pair| self.left.has(&pair.0));
        match &met {
            Some(pair) => self.left.take_first(&pair.0),
            None => self.left.end(),
        }
        met
    }
}

impl DoubleEndedIterator for Pairs<'_> {
    fn next_back(&mut self) -> Option<Pair> {
        self.left.low.as_ref()?;
        let pair = match &self.left.high {
            Some(high) => self.reader.below(high),
            None => self.reader.look(bw_raw_below, b""),
        };
        let met = pair.filter(|pair| self.left.has(&pair.0));
        match &met {
            Some(pair) => self.left.take_last(&pair.0),
            None => self.left.end(),
        }
        met
    }
}
