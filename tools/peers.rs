//! Other stores under the load of `bw_bench`: as many keys in the same scattered order, batches of puts, no sync. `make peers` builds it with
//! rustc, over the C libraries of LMDB and LevelDB.
//!
//!     peers FOLDER KEYS [--shared N] [--value N] [--batch N] [--readers N] [--synced]
//!
//! Keys share so many bytes and have 8 of their own, 0 if it is not said; values have 100 bytes, batches 64 puts. With `--readers` only LMDB
//! over a writable map is asked, with so many threads that look keys up while it is written to; with `--synced` only LevelDB, which then syncs its
//! log after each batch.

use std::collections::BTreeMap;
use std::ffi::{c_char, c_int, c_uint, c_void, CString};
use std::ptr::{null, null_mut};
use std::sync::atomic::{AtomicBool, AtomicU64, Ordering};
use std::time::Instant;

const PRIME: u64 = 2_654_435_761;
const RANGE: usize = 100;

#[derive(Clone, Copy)]
struct Shape {
    keys: u64,
    shared: usize,
    value: usize,
    batch: u64,
}

impl Shape {
    fn number(self, put: u64) -> u64 {
        put.wrapping_mul(PRIME) % self.keys
    }

    fn key_at(self, number: u64, bytes: &mut [u8; 128]) -> &[u8] {
        bytes[..self.shared].fill(b'k');
        bytes[self.shared..self.shared + 8].copy_from_slice(&number.to_be_bytes());
        &bytes[..self.shared + 8]
    }

    fn key(self, put: u64, bytes: &mut [u8; 128]) -> &[u8] {
        self.key_at(self.number(put), bytes)
    }

    fn value(self, put: u64, bytes: &mut [u8; 512]) -> &[u8] {
        bytes[..self.value].fill(put as u8);
        let word = self.number(put) + (put / self.keys) * 4_294_967_296;
        bytes[..8].copy_from_slice(&word.to_le_bytes());
        &bytes[..self.value]
    }
}

/// A store that takes batches of puts, and answers look-ups and walks.
trait Peer {
    fn write(&mut self, puts: std::ops::Range<u64>, shape: Shape);

    /// Whether a key has this value.
    fn has(&mut self, key: &[u8], value: &[u8]) -> bool;

    /// How many pairs stand from a key on, at most so many, and how many bytes their values have.
    fn walk(&mut self, from: &[u8], most: usize) -> (usize, usize);
}

struct Map(BTreeMap<Vec<u8>, Vec<u8>>);

impl Peer for Map {
    fn write(&mut self, puts: std::ops::Range<u64>, shape: Shape) {
        let (mut key, mut value) = ([0; 128], [0; 512]);
        for put in puts {
            self.0.insert(shape.key(put, &mut key).to_vec(), shape.value(put, &mut value).to_vec());
        }
    }

    fn has(&mut self, key: &[u8], value: &[u8]) -> bool {
        self.0.get(key).is_some_and(|found| found == value)
    }

    fn walk(&mut self, from: &[u8], most: usize) -> (usize, usize) {
        let pairs = self.0.range::<[u8], _>((std::ops::Bound::Included(from), std::ops::Bound::Unbounded)).take(most);
        pairs.fold((0, 0), |(count, bytes), pair| (count + 1, bytes + pair.1.len()))
    }
}

#[repr(C)]
struct Bytes {
    length: usize,
    data: *mut c_void,
}

fn bytes(of: &[u8]) -> Bytes {
    Bytes { length: of.len(), data: of.as_ptr() as *mut c_void }
}

impl Bytes {
    unsafe fn as_slice(&self) -> &[u8] {
        std::slice::from_raw_parts(self.data as *const u8, self.length)
    }
}

#[link(name = "lmdb")]
extern "C" {
    fn mdb_env_create(env: *mut *mut c_void) -> c_int;
    fn mdb_env_set_mapsize(env: *mut c_void, size: usize) -> c_int;
    fn mdb_env_open(env: *mut c_void, path: *const c_char, flags: c_uint, mode: c_uint) -> c_int;
    fn mdb_txn_begin(env: *mut c_void, parent: *mut c_void, flags: c_uint, txn: *mut *mut c_void) -> c_int;
    fn mdb_txn_commit(txn: *mut c_void) -> c_int;
    fn mdb_txn_abort(txn: *mut c_void);
    fn mdb_dbi_open(txn: *mut c_void, name: *const c_char, flags: c_uint, dbi: *mut c_uint) -> c_int;
    fn mdb_put(txn: *mut c_void, dbi: c_uint, key: *mut Bytes, data: *mut Bytes, flags: c_uint) -> c_int;
    fn mdb_get(txn: *mut c_void, dbi: c_uint, key: *mut Bytes, data: *mut Bytes) -> c_int;
    fn mdb_cursor_open(txn: *mut c_void, dbi: c_uint, cursor: *mut *mut c_void) -> c_int;
    fn mdb_cursor_get(cursor: *mut c_void, key: *mut Bytes, data: *mut Bytes, what: c_uint) -> c_int;
    fn mdb_cursor_close(cursor: *mut c_void);
}

const NO_SYNC: c_uint = 0x10000;
const READ_ONLY: c_uint = 0x20000;
const WRITE_MAP: c_uint = 0x80000;
const NEXT: c_uint = 8;
const AT_OR_ABOVE: c_uint = 17;

struct Lmdb {
    env: *mut c_void,
    dbi: c_uint,
    reading: *mut c_void,
}

impl Lmdb {
    fn open(folder: &str, flags: c_uint) -> Lmdb {
        std::fs::create_dir_all(folder).expect("a folder");
        let path = CString::new(folder).expect("a path");
        let mut it = Lmdb { env: null_mut(), dbi: 0, reading: null_mut() };
        unsafe {
            assert_eq!(mdb_env_create(&mut it.env), 0);
            assert_eq!(mdb_env_set_mapsize(it.env, 4 << 30), 0);
            assert_eq!(mdb_env_open(it.env, path.as_ptr(), flags | NO_SYNC, 0o600), 0);
            let mut txn = null_mut();
            assert_eq!(mdb_txn_begin(it.env, null_mut(), 0, &mut txn), 0);
            assert_eq!(mdb_dbi_open(txn, null(), 0, &mut it.dbi), 0);
            assert_eq!(mdb_txn_commit(txn), 0);
        }
        it
    }

    // All look-ups and walks are of one transaction, the cheapest way that it has.
    fn reading(&mut self) -> *mut c_void {
        if self.reading.is_null() {
            assert_eq!(unsafe { mdb_txn_begin(self.env, null_mut(), READ_ONLY, &mut self.reading) }, 0);
        }
        self.reading
    }
}

impl Peer for Lmdb {
    fn write(&mut self, puts: std::ops::Range<u64>, shape: Shape) {
        let (mut key, mut value) = ([0; 128], [0; 512]);
        unsafe {
            let mut txn = null_mut();
            assert_eq!(mdb_txn_begin(self.env, null_mut(), 0, &mut txn), 0);
            for put in puts {
                let (key, value) = (shape.key(put, &mut key), shape.value(put, &mut value));
                assert_eq!(mdb_put(txn, self.dbi, &mut bytes(key), &mut bytes(value), 0), 0);
            }
            assert_eq!(mdb_txn_commit(txn), 0);
        }
    }

    fn has(&mut self, key: &[u8], value: &[u8]) -> bool {
        let reading = self.reading();
        let mut found = bytes(&[]);
        unsafe { mdb_get(reading, self.dbi, &mut bytes(key), &mut found) == 0 && found.as_slice() == value }
    }

    fn walk(&mut self, from: &[u8], most: usize) -> (usize, usize) {
        let reading = self.reading();
        let (mut cursor, mut key, mut value) = (null_mut(), bytes(from), bytes(&[]));
        let (mut pairs, mut sum, mut what) = (0, 0, AT_OR_ABOVE);
        unsafe {
            assert_eq!(mdb_cursor_open(reading, self.dbi, &mut cursor), 0);
            while pairs < most && mdb_cursor_get(cursor, &mut key, &mut value, what) == 0 {
                (pairs, sum, what) = (pairs + 1, sum + value.length, NEXT);
            }
            mdb_cursor_close(cursor);
        }
        (pairs, sum)
    }
}

#[link(name = "leveldb")]
extern "C" {
    fn leveldb_options_create() -> *mut c_void;
    fn leveldb_options_set_create_if_missing(options: *mut c_void, to: u8);
    fn leveldb_open(options: *mut c_void, name: *const c_char, error: *mut *mut c_char) -> *mut c_void;
    fn leveldb_writeoptions_create() -> *mut c_void;
    fn leveldb_writeoptions_set_sync(options: *mut c_void, to: u8);
    fn leveldb_readoptions_create() -> *mut c_void;
    fn leveldb_writebatch_create() -> *mut c_void;
    fn leveldb_writebatch_clear(batch: *mut c_void);
    fn leveldb_writebatch_put(batch: *mut c_void, key: *const u8, length: usize, value: *const u8, size: usize);
    fn leveldb_write(db: *mut c_void, options: *mut c_void, batch: *mut c_void, error: *mut *mut c_char);
    fn leveldb_get(db: *mut c_void, options: *mut c_void, key: *const u8, length: usize, size: *mut usize, error: *mut *mut c_char) -> *mut u8;
    fn leveldb_create_iterator(db: *mut c_void, options: *mut c_void) -> *mut c_void;
    fn leveldb_iter_seek(iterator: *mut c_void, key: *const u8, length: usize);
    fn leveldb_iter_valid(iterator: *const c_void) -> u8;
    fn leveldb_iter_next(iterator: *mut c_void);
    fn leveldb_iter_value(iterator: *const c_void, size: *mut usize) -> *const u8;
    fn leveldb_iter_destroy(iterator: *mut c_void);
    fn leveldb_free(it: *mut c_void);
}

struct Level {
    db: *mut c_void,
    batch: *mut c_void,
    writes: *mut c_void,
    reads: *mut c_void,
}

impl Level {
    fn open(folder: &str, is_synced: bool) -> Level {
        let path = CString::new(folder).expect("a path");
        let mut error = null_mut();
        unsafe {
            let options = leveldb_options_create();
            leveldb_options_set_create_if_missing(options, 1);
            let db = leveldb_open(options, path.as_ptr(), &mut error);
            assert!(error.is_null());
            let writes = leveldb_writeoptions_create();
            leveldb_writeoptions_set_sync(writes, u8::from(is_synced));
            Level { db, batch: leveldb_writebatch_create(), writes, reads: leveldb_readoptions_create() }
        }
    }
}

impl Peer for Level {
    fn write(&mut self, puts: std::ops::Range<u64>, shape: Shape) {
        let mut error = null_mut();
        let (mut key, mut value) = ([0; 128], [0; 512]);
        unsafe {
            leveldb_writebatch_clear(self.batch);
            for put in puts {
                let (key, value) = (shape.key(put, &mut key), shape.value(put, &mut value));
                leveldb_writebatch_put(self.batch, key.as_ptr(), key.len(), value.as_ptr(), value.len());
            }
            leveldb_write(self.db, self.writes, self.batch, &mut error);
        }
        assert!(error.is_null());
    }

    fn has(&mut self, key: &[u8], value: &[u8]) -> bool {
        let (mut size, mut error) = (0, null_mut());
        unsafe {
            let found = leveldb_get(self.db, self.reads, key.as_ptr(), key.len(), &mut size, &mut error);
            assert!(error.is_null());
            if found.is_null() {
                return false;
            }
            let is_it = std::slice::from_raw_parts(found, size) == value;
            leveldb_free(found as *mut c_void);
            is_it
        }
    }

    fn walk(&mut self, from: &[u8], most: usize) -> (usize, usize) {
        let (mut pairs, mut sum, mut size) = (0, 0, 0);
        unsafe {
            let iterator = leveldb_create_iterator(self.db, self.reads);
            leveldb_iter_seek(iterator, from.as_ptr(), from.len());
            while pairs < most && leveldb_iter_valid(iterator) != 0 {
                leveldb_iter_value(iterator, &mut size);
                (pairs, sum) = (pairs + 1, sum + size);
                leveldb_iter_next(iterator);
            }
            leveldb_iter_destroy(iterator);
        }
        (pairs, sum)
    }
}

fn each(begin: Instant, count: u64) -> u128 {
    begin.elapsed().as_nanos() / u128::from(count.max(1))
}

/// Nanoseconds a put of these.
fn put_all(peer: &mut dyn Peer, puts: std::ops::Range<u64>, shape: Shape) -> u128 {
    let (begin, count) = (Instant::now(), puts.end - puts.start);
    let mut from = puts.start;
    while from < puts.end {
        let to = (from + shape.batch).min(puts.end);
        peer.write(from..to, shape);
        from = to;
    }
    each(begin, count)
}

/// Nanoseconds a pair of a walk over all of them, and of ranges from scattered keys on; and whether no pair was left out.
fn walk_all(peer: &mut dyn Peer, shape: Shape) -> (u128, u128, bool) {
    let mut key = [0; 128];
    let begin = Instant::now();
    let all = peer.walk(shape.key_at(0, &mut key), usize::MAX);
    let walk = each(begin, all.0 as u64);
    let (mut pairs, mut sum, mut wanted) = (0, 0, 0);
    let begin = Instant::now();
    for put in 0..shape.keys.div_ceil(RANGE as u64) {
        let found = peer.walk(shape.key(put, &mut key), RANGE);
        (pairs, sum) = (pairs + found.0, sum + found.1);
        wanted += RANGE.min((shape.keys - shape.number(put)) as usize);
    }
    let range = each(begin, pairs as u64);
    (walk, range, all == (shape.keys as usize, shape.keys as usize * shape.value) && (pairs, sum) == (wanted, wanted * shape.value))
}

fn measure(name: &str, peer: &mut dyn Peer, shape: Shape) {
    let keys = shape.keys;
    let load = put_all(peer, 0..keys, shape);
    let update = put_all(peer, keys..2 * keys, shape);
    let (mut key, mut value) = ([0; 128], [0; 512]);
    let begin = Instant::now();
    let right = (keys..2 * keys).filter(|put| peer.has(shape.key(*put, &mut key), shape.value(*put, &mut value))).count() as u64;
    let get = each(begin, keys);
    let (walk, range, is_whole) = walk_all(peer, shape);
    println!("{name:<22} new key {load:>6}   update {update:>6}   get {get:>6}   ns each{}", if right == keys { "" } else { "; WRONG VALUES" });
    println!("{:<22} a walk {walk:>6}   a range of {RANGE} {range:>6}   ns a pair{}", "", if is_whole { "" } else { "; PAIRS LEFT OUT" });
}

/// Looks keys up until it is asked to end, by transactions of 64 look-ups, and answers how many it made.
fn look_up(env: usize, dbi: c_uint, shape: Shape, is_over: &AtomicBool) -> u64 {
    let (mut made, mut key) = (0, [0; 128]);
    while !is_over.load(Ordering::Relaxed) {
        unsafe {
            let mut txn = null_mut();
            assert_eq!(mdb_txn_begin(env as *mut c_void, null_mut(), READ_ONLY, &mut txn), 0);
            for put in made..made + 64 {
                let mut found = bytes(&[]);
                mdb_get(txn, dbi, &mut bytes(shape.key(put, &mut key)), &mut found);
            }
            mdb_txn_abort(txn);
        }
        made += 64;
    }
    made
}

/// Puts while threads look up.
fn measure_beside(readers: u64, peer: &mut Lmdb, shape: Shape) {
    let (is_over, looked) = (AtomicBool::new(false), AtomicU64::new(0));
    let (env, dbi) = (peer.env as usize, peer.dbi);
    let begin = Instant::now();
    let (load, update) = std::thread::scope(|scope| {
        for _ in 0..readers {
            scope.spawn(|| looked.fetch_add(look_up(env, dbi, shape, &is_over), Ordering::Relaxed));
        }
        let load = put_all(peer, 0..shape.keys, shape);
        let update = put_all(peer, shape.keys..2 * shape.keys, shape);
        is_over.store(true, Ordering::Relaxed);
        (load, update)
    });
    let get = each(begin, looked.load(Ordering::Relaxed)) * u128::from(readers);
    println!("LMDB, a writable map, with {readers} readers: new key {load}, update {update}, a reader's get {get} ns each");
}

fn option(words: &[String], name: &str, default: u64) -> u64 {
    match words.iter().position(|word| word == name) {
        Some(at) => words[at + 1].parse().expect("a number"),
        None => default,
    }
}

fn main() {
    let words: Vec<String> = std::env::args().collect();
    let (folder, keys) = (words[1].as_str(), words[2].parse().expect("a number of keys"));
    let shape = Shape {
        keys,
        shared: option(&words, "--shared", 0) as usize,
        value: option(&words, "--value", 100) as usize,
        batch: option(&words, "--batch", 64),
    };
    assert!(shape.shared <= 120 && (8..=512).contains(&shape.value), "at most 120 shared bytes, values of 8 to 512");
    println!("{keys} keys of {} bytes, values of {}, batches of {}", shape.shared + 8, shape.value, shape.batch);
    let readers = option(&words, "--readers", 0);
    if 0 < readers {
        measure_beside(readers, &mut Lmdb::open(&format!("{folder}/beside"), WRITE_MAP), shape);
        return;
    }
    if words.iter().any(|word| word == "--synced") {
        measure("LevelDB, synced", &mut Level::open(&format!("{folder}/synced"), true), shape);
        return;
    }
    measure("a BTreeMap", &mut Map(BTreeMap::new()), shape);
    measure("LMDB", &mut Lmdb::open(&format!("{folder}/lmdb"), 0), shape);
    measure("LMDB, a writable map", &mut Lmdb::open(&format!("{folder}/map"), WRITE_MAP), shape);
    measure("LevelDB", &mut Level::open(&format!("{folder}/level"), false), shape);
}
