//! A store of keys and values in a folder. Both are bytes: a key 1 to 128, a value up to 512.
//!
//! ```no_run
//! use hechdoram::{Span, Store};
//!
//! let store = Store::open("folder")?; // to write, over a child process `bwlog serve`
//! store.put("key", "value")?;
//! store.keep()?; // durable from here on
//! for pair in store.scan(Span::prefix("k")).rev() {
//!     let (key, value) = pair?;
//!     println!("{key:?} {value:?}");
//! }
//! store.close()?;
//! # Ok::<(), hechdoram::Error>(())
//! ```
//!
//! A folder of tables has maps by their names, with values of up to 16 MiB:
//!
//! ```no_run
//! use hechdoram::{TableBatch, TableStore};
//!
//! let store = TableStore::open("other")?;
//! let users = store.create_table("users")?;
//! users.put("1", vec![b'a'; 100_000])?;
//! store.batch(TableBatch::new().put("users", "2", "bob").delete("users", "1"))?; // one step
//! store.close()?;
//! # Ok::<(), hechdoram::Error>(())
//! ```
//!
//! With the feature `read` there is a [`Reader`] too, which reads a folder whole in this process,
//! over the library that `make lib` makes; it has the same names for what both have.
//!
//! Keys stand in the order of their bytes. No pair has a key of another length than 1 to 128, so a
//! look-up of one finds nothing, and a put of one is [`Kind::TooLong`].

mod child;
mod error;
#[cfg(feature = "read")]
mod reader;
mod scan;
mod served;
mod span;
mod store;
mod tables;
mod words;

pub use error::{Error, Kind, Result};
#[cfg(feature = "read")]
pub use reader::{Pairs, Reader};
pub use scan::Scan;
pub use served::{Copied, Reopened, Stats};
pub use span::{after, Span};
pub use store::{Batch, Options, Store};
pub use tables::{Table, TableBatch, TableScan, TableStore};

/// The most bytes of a key.
pub const MAX_KEY: usize = 128;
/// The most bytes of a value.
pub const MAX_VALUE: usize = 512;

/// The most bytes of a table's name, of a key of a table, and of a value of one.
pub const MAX_NAME: usize = 127;
pub const MAX_TABLE_KEY: usize = 124;
pub const MAX_TABLE_VALUE: usize = 16_777_216;

/// A key and its value.
pub type Pair = (Vec<u8>, Vec<u8>);
