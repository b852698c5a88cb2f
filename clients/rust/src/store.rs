//! A store in a folder, written and read over a child process.

use crate::served::{ok_in, Copied, Reopened, Served, Stats};
use crate::span::lowest;
use crate::tables::TableStore;
use crate::words::{
    check, is_key, line_of, number_in, pair_in, pairs_in, push_change, push_word, value_in,
    values_in,
};
use crate::{Error, Kind, Pair, Result, Scan, Span, MAX_KEY};
use std::path::{Path, PathBuf};

/// The most records of one step, and the most bytes of a line.
const MOST_RECORDS: usize = 4;
const MOST_BYTES: usize = 4096;
const LONG_GROUP: &str = "a group has one to four records, in a line of at most 4096 bytes";
/// The most keys of one line, or pairs, and how many are sent in one burst.
const MOST_KEYS: usize = 64;
const BURST: usize = 16384;
/// The greatest key.
const GREATEST: [u8; MAX_KEY] = [0xff; MAX_KEY];

/// How a store is opened: the options of `bwlog serve`, each with the program's default.
#[derive(Debug, Clone, Default)]
pub struct Options {
    program: Option<PathBuf>,
    numbers: Vec<(&'static str, u64)>,
}

impl Options {
    pub fn new() -> Options {
        Options::default()
    }

    /// The program, by its path or as it is found along PATH; `bwlog` if nothing is said.
    pub fn program(mut self, program: impl AsRef<Path>) -> Options {
        self.program = Some(program.as_ref().to_path_buf());
        self
    }

    fn number(mut self, name: &'static str, number: u64) -> Options {
        self.numbers.push((name, number));
        self
    }

    /// How many bytes a segment has room for.
    pub fn capacity(self, bytes: u64) -> Options {
        self.number("capacity", bytes)
    }

    /// How many segments a new store begins with.
    pub fn segments(self, count: u64) -> Options {
        self.number("segments", count)
    }

    /// How many segments a store may have.
    pub fn most_segments(self, count: u64) -> Options {
        self.number("most-segments", count)
    }

    /// How many pairs a page of a new store has at most.
    pub fn m(self, pairs: u64) -> Options {
        self.number("m", pairs)
    }

    /// How many bytes a frame of a new store has at most.
    pub fn frame(self, bytes: u64) -> Options {
        self.number("frame", bytes)
    }

    /// How many groups wait at most.
    pub fn places(self, groups: u64) -> Options {
        self.number("places", groups)
    }

    /// Opens the store of a folder, which is made if it is missing.
    pub fn open(&self, folder: impl AsRef<Path>) -> Result<Store> {
        let served = self.serve(folder.as_ref(), false)?;
        Ok(Store { served })
    }

    /// Opens the tables of a folder, which is made if it is missing. A folder whose pairs are no
    /// tables is refused, as [`Kind::Ended`] with the program's words.
    pub fn open_tables(&self, folder: impl AsRef<Path>) -> Result<TableStore> {
        Ok(TableStore::over(self.serve(folder.as_ref(), true)?))
    }

    fn serve(&self, folder: &Path, has_tables: bool) -> Result<Served> {
        Served::open(self.program.as_ref(), folder, &self.numbers, has_tables)
    }
}

/// Changes in their order.
#[derive(Debug, Clone, Default)]
pub struct Batch {
    changes: Vec<(Vec<u8>, Option<Vec<u8>>)>,
}

impl Batch {
    pub fn new() -> Batch {
        Batch::default()
    }

    /// Sets the value of a key.
    pub fn put(&mut self, key: impl AsRef<[u8]>, value: impl AsRef<[u8]>) -> &mut Batch {
        self.changes.push((key.as_ref().to_vec(), Some(value.as_ref().to_vec())));
        self
    }

    /// Deletes a key, if it is there.
    pub fn delete(&mut self, key: impl AsRef<[u8]>) -> &mut Batch {
        self.changes.push((key.as_ref().to_vec(), None));
        self
    }

    /// The lines of its changes, each with as many as one step takes.
    fn groups(&self) -> Result<Vec<Vec<u8>>> {
        let (mut lines, mut count) = (Vec::<Vec<u8>>::new(), MOST_RECORDS);
        for (key, value) in &self.changes {
            if let Some(value) = value {
                check(key, value)?;
            } else if !is_key(key) {
                continue; // no pair has such a key
            }
            let mut op = vec![b' '];
            push_change(&mut op, key, value.as_deref());
            let line = lines.last_mut().filter(|line| line.len() + op.len() <= MOST_BYTES);
            match line {
                Some(line) if count < MOST_RECORDS => {
                    line.extend_from_slice(&op);
                    count += 1;
                }
                _ => {
                    lines.push([b"group".as_slice(), &op].concat());
                    count = 1;
                }
            }
        }
        Ok(lines)
    }
}

/// Lines of keys, or of pairs, each with as many as it holds.
struct Lines {
    name: &'static [u8],
    lines: Vec<Vec<u8>>,
    /// How many each of them has.
    counts: Vec<usize>,
    /// How many all of them have.
    total: usize,
}

impl Lines {
    fn new(name: &'static [u8]) -> Lines {
        Lines { name, lines: Vec::new(), counts: Vec::new(), total: 0 }
    }

    /// Adds a key, and its value if there is one.
    fn push(&mut self, key: &[u8], value: Option<&[u8]>) {
        self.total += 1;
        if let (Some(line), Some(count)) = (self.lines.last_mut(), self.counts.last_mut()) {
            let before = line.len();
            if *count < MOST_KEYS {
                push_words(line, key, value);
                if line.len() <= MOST_BYTES {
                    *count += 1;
                    return;
                }
                line.truncate(before);
            }
        }
        let mut line = self.name.to_vec();
        push_words(&mut line, key, value);
        self.lines.push(line);
        self.counts.push(1);
    }
}

fn push_words(line: &mut Vec<u8>, key: &[u8], value: Option<&[u8]>) {
    push_word(line, key);
    if let Some(value) = value {
        push_word(line, value);
    }
}

/// The store in a folder.
///
/// What was put is seen at once, and durable once `keep` or `close` has answered. A store that is
/// dropped keeps nothing more. Threads may share it: a call waits for the one before it. A call
/// that is left before its answer was read, as by a panic, ends the store: each later one is
/// [`Kind::Ended`].
pub struct Store {
    served: Served,
}

impl Store {
    /// Opens the store of a folder, which is made if it is missing, by the program `bwlog`.
    pub fn open(folder: impl AsRef<Path>) -> Result<Store> {
        Options::new().open(folder)
    }

    /// Sets the value of a key.
    pub fn put(&self, key: impl AsRef<[u8]>, value: impl AsRef<[u8]>) -> Result<()> {
        let (key, value) = (key.as_ref(), value.as_ref());
        check(key, value)?;
        let mut line = Vec::new();
        push_change(&mut line, key, Some(value));
        self.served.ask(&line, ok_in)
    }

    /// Deletes a key, if it is there.
    pub fn delete(&self, key: impl AsRef<[u8]>) -> Result<()> {
        if !is_key(key.as_ref()) {
            return Ok(());
        }
        self.served.ask(&line_of("del", key.as_ref()), ok_in)
    }

    /// The value of a key, if it has one.
    pub fn get(&self, key: impl AsRef<[u8]>) -> Result<Option<Vec<u8>>> {
        if !is_key(key.as_ref()) {
            self.served.burst(&mut self.served.child(), &[], ok_in)?; // a store that has ended says so
            return Ok(None);
        }
        self.served.ask(&line_of("get", key.as_ref()), value_in)
    }

    /// The values of many keys, in their order, asked in bursts.
    pub fn get_many<I>(&self, keys: I) -> Result<Vec<Option<Vec<u8>>>>
    where
        I: IntoIterator,
        I::Item: AsRef<[u8]>,
    {
        let (mut values, mut places, mut lines) = (Vec::new(), Vec::new(), Lines::new(b"gets"));
        for key in keys {
            if is_key(key.as_ref()) {
                places.push(values.len());
                lines.push(key.as_ref(), None);
            }
            values.push(None);
            if lines.total == BURST {
                self.fill(&mut values, &std::mem::take(&mut places), &lines)?;
                lines = Lines::new(b"gets");
            }
        }
        self.fill(&mut values, &places, &lines)?;
        Ok(values)
    }

    /// Asks for the values of keys, and notes each at its place.
    fn fill(&self, values: &mut [Option<Vec<u8>>], places: &[usize], lines: &Lines) -> Result<()> {
        let child = &mut self.served.child();
        let answers = self.served.burst(child, &lines.lines, |answer| Some(answer.to_string()))?;
        let mut places = places.iter();
        for (answer, count) in answers.iter().zip(&lines.counts) {
            let found = values_in(answer, *count).ok_or_else(|| child.no_answer(answer))?;
            for (value, at) in found.into_iter().zip(&mut places) {
                values[*at] = value;
            }
        }
        Ok(())
    }

    /// Puts many pairs, in bursts of 16,384, in lines of up to 64. It is no step: if a pair is
    /// refused those after it in its line are not put, the other lines of its burst are, and the
    /// first refusal is returned. A length that no pair may have is refused before its burst is
    /// sent.
    pub fn put_many<I, K, V>(&self, pairs: I) -> Result<()>
    where
        I: IntoIterator<Item = (K, V)>,
        K: AsRef<[u8]>,
        V: AsRef<[u8]>,
    {
        let mut lines = Lines::new(b"puts");
        for (key, value) in pairs {
            let (key, value) = (key.as_ref(), value.as_ref());
            check(key, value)?;
            lines.push(key, Some(value));
            if lines.total == BURST {
                self.served.burst(&mut self.served.child(), &lines.lines, ok_in)?;
                lines = Lines::new(b"puts");
            }
        }
        self.served.burst(&mut self.served.child(), &lines.lines, ok_in).map(|_| ())
    }

    /// Makes one to four changes in one step: whatever happens, all are there or none. More are
    /// refused by [`Kind::TooLong`]; so are four of together more than a line holds, 4,096 bytes,
    /// in which a byte that is not printable takes two.
    pub fn group(&self, changes: &Batch) -> Result<()> {
        let lines = changes.groups()?;
        if lines.len() > 1 {
            return Err(Error::new(Kind::TooLong, LONG_GROUP));
        }
        self.served.burst(&mut self.served.child(), &lines, ok_in).map(|_| ())
    }

    /// Makes many changes in groups, in their order. Up to four records are one step, as of
    /// `group`; of more, whatever stops them, a beginning is there. The first refusal ends the
    /// batch there.
    pub fn batch(&self, changes: &Batch) -> Result<()> {
        let mut child = self.served.child();
        for line in changes.groups()? {
            self.served.burst(&mut child, &[line], ok_in)?;
        }
        Ok(())
    }

    /// The pair with the least key at or above these bytes, if there is one.
    pub fn at_or_above(&self, key: impl AsRef<[u8]>) -> Result<Option<Pair>> {
        match lowest(key.as_ref()) {
            Some(low) => self.served.ask(&line_of("next", &low), pair_in),
            None => Ok(None),
        }
    }

    /// The pair with the greatest key at or below these bytes, if there is one.
    pub fn at_or_below(&self, key: impl AsRef<[u8]>) -> Result<Option<Pair>> {
        let key = key.as_ref();
        if key.is_empty() {
            return Ok(None);
        }
        self.served.ask(&line_of("prev", &key[..key.len().min(MAX_KEY)]), pair_in)
    }

    /// The pair with the greatest key below these bytes, if there is one.
    pub fn below(&self, key: impl AsRef<[u8]>) -> Result<Option<Pair>> {
        self.last_below(Some(key.as_ref()))
    }

    /// The pair with the greatest key below this one, or of all.
    pub(crate) fn last_below(&self, key: Option<&[u8]>) -> Result<Option<Pair>> {
        match key {
            Some(key) if is_key(key) => self.served.ask(&line_of("below", key), pair_in),
            Some(key) => self.at_or_below(key),
            None => self.at_or_below(GREATEST),
        }
    }

    /// The first pairs at or above a key, so many of them.
    pub(crate) fn first_pairs(&self, key: &[u8], most: usize) -> Result<Vec<Pair>> {
        let mut line = line_of("scan", key);
        line.extend_from_slice(format!(" {most}").as_bytes());
        self.served.ask(&line, pairs_in)
    }

    /// A walk over pairs in the order of their keys; `.rev()` walks the other way.
    pub fn scan(&self, span: Span) -> Scan<'_> {
        Scan::new(self, &span)
    }

    /// How many pairs there are.
    pub fn count(&self) -> Result<u64> {
        self.served.ask(b"count", |answer| number_in(answer, "count"))
    }

    /// Makes durable what was put: the number of the last frame; `None` if nothing was new.
    pub fn keep(&self) -> Result<Option<u64>> {
        self.served.keep()
    }

    /// Opens the folder once more, in the same child. It is for a store that [`Kind::Failed`], and
    /// goes on from all that is durable. What can still be kept is, before.
    pub fn reopen(&self) -> Result<Reopened> {
        self.served.reopen()
    }

    /// The store's numbers.
    pub fn stats(&self) -> Result<Stats> {
        self.served.stats()
    }

    /// Gives up the oldest segment, whose room is free again: how many bytes that won.
    pub fn clean(&self) -> Result<u64> {
        self.served.clean()
    }

    /// Adds a segment: its number.
    pub fn add(&self) -> Result<u64> {
        self.served.add()
    }

    /// Keeps what was put, and copies the store into a new folder. A relative path begins where
    /// this process was when it opened the store.
    pub fn backup(&self, to: impl AsRef<Path>) -> Result<Copied> {
        self.served.backup(to.as_ref())
    }

    /// Keeps what was put, and ends the child. If that is refused the store stays open. A second
    /// close does nothing.
    pub fn close(&self) -> Result<()> {
        self.served.close()
    }

    /// Ends the child, and keeps nothing more.
    pub fn abandon(&self) {
        self.served.abandon();
    }
}
