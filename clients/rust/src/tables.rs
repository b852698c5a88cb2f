//! The tables of a folder, written and read over a child process.

use crate::served::{ok_in, Copied, Reopened, Served, Stats};
use crate::words::{names_in, number_in, pair_in, push_word, rows_in, value_in};
use crate::{Error, Kind, Options, Pair, Result, Span, MAX_NAME, MAX_TABLE_KEY, MAX_TABLE_VALUE};
use std::collections::VecDeque;
use std::path::Path;

/// The most changes of a batch, and the most bytes of their keys and values together.
const MOST_CHANGES: usize = 65_536;
const MOST_BATCH: usize = 67_108_864;
/// How many pairs a walk asks for at first, and at most; and how many names one answer has.
const FIRST: usize = 8;
const MOST: usize = 512;
const MOST_NAMES: usize = 1024;

fn too_long(text: &str) -> Error {
    Error::new(Kind::TooLong, text)
}

/// Whether a table may have this key.
fn is_key(key: &[u8]) -> bool {
    (1..=MAX_TABLE_KEY).contains(&key.len())
}

/// Refuses a name that no table may have.
fn check_name(name: &[u8]) -> Result<()> {
    if (1..=MAX_NAME).contains(&name.len()) {
        return Ok(());
    }
    Err(too_long("a name has 1 to 127 bytes"))
}

/// Refuses a pair that no table may have.
fn check(key: &[u8], value: &[u8]) -> Result<()> {
    if !is_key(key) {
        return Err(too_long("a key of a table has 1 to 124 bytes"));
    }
    if value.len() > MAX_TABLE_VALUE {
        return Err(too_long("a value of a table has 0 to 16777216 bytes"));
    }
    Ok(())
}

/// The line of a request: its name, and words.
fn line_of(name: &str, words: &[&[u8]]) -> Vec<u8> {
    let mut line = name.as_bytes().to_vec();
    for word in words {
        push_word(&mut line, word);
    }
    line
}

/// The line of a change: a put, or a delete if there is no value.
fn change_line(table: &[u8], key: &[u8], value: Option<&[u8]>) -> Vec<u8> {
    match value {
        Some(value) => line_of("put", &[table, key, value]),
        None => line_of("del", &[table, key]),
    }
}

/// A change of a table: its name, a key, and the value if there is one.
type Change = (Vec<u8>, Vec<u8>, Option<Vec<u8>>);

/// Changes of tables in their order. A later change of a key takes the place of an earlier one.
#[derive(Debug, Clone, Default)]
pub struct TableBatch {
    changes: Vec<Change>,
}

impl TableBatch {
    pub fn new() -> TableBatch {
        TableBatch::default()
    }

    /// Sets the value of a key of a table.
    pub fn put(
        &mut self,
        table: impl AsRef<[u8]>,
        key: impl AsRef<[u8]>,
        value: impl AsRef<[u8]>,
    ) -> &mut TableBatch {
        self.push(table.as_ref(), key.as_ref(), Some(value.as_ref()))
    }

    /// Deletes a key of a table, if it is there.
    pub fn delete(&mut self, table: impl AsRef<[u8]>, key: impl AsRef<[u8]>) -> &mut TableBatch {
        self.push(table.as_ref(), key.as_ref(), None)
    }

    fn push(&mut self, table: &[u8], key: &[u8], value: Option<&[u8]>) -> &mut TableBatch {
        self.changes.push((table.to_vec(), key.to_vec(), value.map(<[u8]>::to_vec)));
        self
    }

    /// The request of all its changes; none if there is none.
    fn request(&self) -> Result<Option<Vec<u8>>> {
        let (mut lines, mut bytes) = (vec![Vec::new()], 0);
        for (table, key, value) in &self.changes {
            check_name(table)?;
            if let Some(value) = value {
                check(key, value)?;
            } else if !is_key(key) {
                continue; // no table has such a key
            }
            bytes += key.len() + value.as_ref().map_or(0, Vec::len);
            lines.push(change_line(table, key, value.as_deref()));
        }
        if lines.len() - 1 > MOST_CHANGES {
            return Err(too_long("a batch has at most 65536 changes"));
        }
        if bytes > MOST_BATCH {
            return Err(too_long("the keys and values of a batch have at most 67108864 bytes"));
        }
        lines[0] = format!("batch {}", lines.len() - 1).into_bytes();
        Ok((lines.len() > 1).then(|| lines.join(&b'\n')))
    }
}

/// The tables of a folder, by their names.
///
/// What was put is seen at once, and durable once `keep` or `close` has answered. Each call is one
/// step: whatever stops it, all of it is there or nothing. A store that is dropped keeps nothing
/// more. Threads may share it: a call waits for the one before it. A call that is left before its
/// answer was read, as by a panic, ends the store: each later one is [`Kind::Ended`].
pub struct TableStore {
    served: Served,
}

impl TableStore {
    /// Opens the tables of a folder, which is made if it is missing, by the program `bwlog`. As
    /// [`Options::open_tables`].
    pub fn open(folder: impl AsRef<Path>) -> Result<TableStore> {
        Options::new().open_tables(folder)
    }

    pub(crate) fn over(served: Served) -> TableStore {
        TableStore { served }
    }

    /// The table of this name. Nothing is asked: its calls are refused as [`Kind::NoTable`] if there
    /// is none.
    pub fn table(&self, name: impl AsRef<[u8]>) -> Table<'_> {
        Table { store: self, name: name.as_ref().to_vec() }
    }

    /// The names of all tables, in the order of their bytes.
    pub fn tables(&self) -> Result<Vec<Vec<u8>>> {
        let mut names = self.served.ask(b"tables", names_in)?;
        let mut most = names.len();
        while most == MOST_NAMES {
            let last = names.last().map_or(&[] as &[u8], Vec::as_slice);
            let more = self.served.ask(&line_of("tables", &[last]), names_in)?;
            most = more.len();
            names.extend(more);
        }
        Ok(names)
    }

    /// Makes a table with no key. [`Kind::TableExists`] if there is one of this name.
    pub fn create_table(&self, name: impl AsRef<[u8]>) -> Result<Table<'_>> {
        let table = self.table(name);
        check_name(&table.name)?;
        self.served.ask(&line_of("create", &[&table.name]), ok_in)?;
        Ok(table)
    }

    /// Drops a table with all its keys, in one step. [`Kind::NoTable`] if there is none of this
    /// name.
    pub fn drop_table(&self, name: impl AsRef<[u8]>) -> Result<()> {
        check_name(name.as_ref())?;
        self.served.ask(&line_of("drop", &[name.as_ref()]), ok_in)
    }

    /// Makes all changes, in any tables, in one step: whatever stops it, all are there or none. More
    /// than 65,536 are refused by [`Kind::TooLong`], and so are keys and values of more than 64 MiB
    /// together.
    pub fn batch(&self, changes: &TableBatch) -> Result<()> {
        match changes.request()? {
            Some(request) => self.served.ask(&request, ok_in),
            None => Ok(()),
        }
    }

    /// Makes durable what was put: the number of the last frame; `None` if nothing was new.
    pub fn keep(&self) -> Result<Option<u64>> {
        self.served.keep()
    }

    /// Opens the folder once more, in the same child. It is for a store that [`Kind::Failed`], and
    /// goes on from all that is durable. What can still be kept is, before.
    pub fn reopen(&self) -> Result<Reopened> {
        self.served.reopen()
    }

    /// The store's numbers.
    pub fn stats(&self) -> Result<Stats> {
        self.served.stats()
    }

    /// Gives up the oldest segment, whose room is free again: how many bytes that won.
    pub fn clean(&self) -> Result<u64> {
        self.served.clean()
    }

    /// Adds a segment: its number.
    pub fn add(&self) -> Result<u64> {
        self.served.add()
    }

    /// Keeps what was put, and copies the store into a new folder. A relative path begins where
    /// this process was when it opened the store.
    pub fn backup(&self, to: impl AsRef<Path>) -> Result<Copied> {
        self.served.backup(to.as_ref())
    }

    /// Keeps what was put, and ends the child. If that is refused the store stays open. A second
    /// close does nothing.
    pub fn close(&self) -> Result<()> {
        self.served.close()
    }

    /// Ends the child, and keeps nothing more.
    pub fn abandon(&self) {
        self.served.abandon();
    }
}

/// A table of a folder: a map in the order of the keys' bytes. A key has 1 to 124 bytes, a value up
/// to 16 MiB.
///
/// No table has a key of another length, so a look-up of one finds nothing, and a put of one is
/// [`Kind::TooLong`]. If no table has the name, each call is [`Kind::NoTable`].
pub struct Table<'a> {
    store: &'a TableStore,
    name: Vec<u8>,
}

impl<'a> Table<'a> {
    /// The table's name.
    pub fn name(&self) -> &[u8] {
        &self.name
    }

    fn ask<T>(&self, line: &[u8], read: impl Fn(&str) -> Option<T>) -> Result<T> {
        check_name(&self.name)?;
        self.store.served.ask(line, read)
    }

    /// Sets the value of a key, in one step: after whatever stops it the key has the old value or
    /// the new one.
    pub fn put(&self, key: impl AsRef<[u8]>, value: impl AsRef<[u8]>) -> Result<()> {
        check(key.as_ref(), value.as_ref())?;
        self.ask(&change_line(&self.name, key.as_ref(), Some(value.as_ref())), ok_in)
    }

    /// Deletes a key, if it is there.
    pub fn delete(&self, key: impl AsRef<[u8]>) -> Result<()> {
        if !is_key(key.as_ref()) {
            return Ok(());
        }
        self.ask(&change_line(&self.name, key.as_ref(), None), ok_in)
    }

    /// The value of a key, if it has one.
    pub fn get(&self, key: impl AsRef<[u8]>) -> Result<Option<Vec<u8>>> {
        if !is_key(key.as_ref()) {
            return Ok(None);
        }
        self.ask(&line_of("get", &[&self.name, key.as_ref()]), value_in)
    }

    /// The pair with the least key at or above these bytes, if there is one.
    pub fn at_or_above(&self, key: impl AsRef<[u8]>) -> Result<Option<Pair>> {
        let key = key.as_ref();
        if key.len() > MAX_TABLE_KEY {
            return self.scan(Span::all().start(key)).next().transpose();
        }
        let low = if key.is_empty() { b"\0" } else { key };
        self.ask(&line_of("next", &[&self.name, low]), pair_in)
    }

    /// A walk over pairs in the order of their keys.
    pub fn scan(&self, span: Span) -> TableScan<'a> {
        let (low, high) = span.bounds();
        let front = &low[..low.len().min(MAX_TABLE_KEY)];
        TableScan {
            table: Table { store: self.store, name: self.name.clone() },
            // A key above the longest that a table may have stands above its first 124 bytes.
            is_above: low.len() > MAX_TABLE_KEY,
            key: if front.is_empty() { vec![0] } else { front.to_vec() },
            high,
            pairs: VecDeque::new(),
            most: FIRST,
            has_more: true,
        }
    }

    /// How many keys the table has. All its rows are looked at, and none of its long values.
    pub fn count(&self) -> Result<u64> {
        self.ask(&line_of("count", &[&self.name]), |answer| number_in(answer, "count"))
    }
}

/// A walk over the pairs of a table in the order of their keys. It asks for up to 512 pairs at a
/// time, or as many as have 1 MiB. It ends after an error.
pub struct TableScan<'a> {
    table: Table<'a>,
    /// Where the next answer begins: at this key, or above it.
    key: Vec<u8>,
    is_above: bool,
    high: Option<Vec<u8>>,
    /// What was answered and not met yet.
    pairs: VecDeque<Pair>,
    most: usize,
    has_more: bool,
}

impl TableScan<'_> {
    /// Asks for the next pairs.
    fn ask(&mut self) -> Result<()> {
        let name = if self.is_above { "above" } else { "scan" };
        let most = self.most.to_string();
        let line = line_of(name, &[&self.table.name, &self.key, most.as_bytes()]);
        let (pairs, is_cut) = self.table.ask(&line, rows_in)?;
        self.has_more = is_cut || pairs.len() == self.most;
        if let Some((key, _)) = pairs.last() {
            self.key.clone_from(key);
        }
        self.is_above = true;
        self.pairs = pairs.into();
        self.most = MOST.min(2 * self.most);
        Ok(())
    }
}

impl Iterator for TableScan<'_> {
    type Item = Result<Pair>;

    fn next(&mut self) -> Option<Result<Pair>> {
        if self.pairs.is_empty() && self.has_more {
            if let Err(error) = self.ask() {
                self.has_more = false;
                return Some(Err(error));
            }
        }
        let pair = self.pairs.pop_front()?;
        if self.high.as_ref().is_some_and(|high| pair.0 >= *high) {
            self.pairs.clear();
            self.has_more = false;
            return None;
        }
        Some(Ok(pair))
    }
}
