//! What goes wrong with a store, by kind.

use std::fmt::{self, Display, Formatter};
use std::io;

/// What kind of thing went wrong.
#[derive(Debug, Clone, Copy, PartialEq, Eq)]
#[non_exhaustive]
pub enum Kind {
    /// The store refused a request, for a reason that has no kind here, and is as it was.
    Refused,
    /// There is no room for what is put (`refused E5 NoSegment`). Deletes, `keep` and `clean` go.
    Full,
    /// A file of the store could not be read or written (`refused E6 Device`), or a write failed
    /// before (`refused E7 Failed`). Then nothing more is kept, and reads still answer: `reopen`
    /// goes on from all that is durable.
    Failed,
    /// No table has this name (`refused E21 NoTable`).
    NoTable,
    /// A table has this name already (`refused E22 Exists`).
    TableExists,
    /// A key has not 1 to 128 bytes, a value more than 512, or a group is more than one step takes;
    /// of tables, a name has not 1 to 127 bytes, a key not 1 to 124, a value more than 16 MiB, or a
    /// batch is more than one takes. Nothing was asked.
    TooLong,
    /// No further request is answered: the store was closed, its program has ended, or a call was
    /// left before its answer was read.
    Ended,
    /// Another process has the folder.
    InUse,
    /// Bytes of the folder were changed or lost, or are no store. Nothing was changed there.
    Damaged,
    /// There is nothing to read: no such folder, no segment in it, or no whole frame.
    NoStore,
    /// Memory was refused.
    NoMemory,
    /// The system refused a call, for this reason.
    System(i32),
}

/// What went wrong: its kind, and the program's own sentence.
#[derive(Debug, Clone, PartialEq, Eq)]
pub struct Error {
    kind: Kind,
    words: String,
}

pub type Result<T> = std::result::Result<T, Error>;

/// What the program says of a folder whose bytes it refuses.
const DAMAGED: [&str; 4] = [": damaged: ", ": missing: ", ": bad bytes: ", " is missing, "];

impl Error {
    pub(crate) fn new(kind: Kind, words: impl Into<String>) -> Error {
        let words = words.into();
        Error { kind, words }
    }

    pub(crate) fn ended(words: impl Into<String>) -> Error {
        Error::new(Kind::Ended, words)
    }

    /// The error of a program that ended with these words.
    pub(crate) fn end_by(words: &str) -> Error {
        let refused = words.strip_prefix("refused E1").and_then(|rest| rest.chars().next());
        let is_damaged = DAMAGED.iter().any(|text| words.contains(text))
            || refused.is_some_and(|digit| ('2'..='7').contains(&digit));
        let kind = if words.lines().any(|line| line.ends_with(": in use")) {
            Kind::InUse
        } else if is_damaged {
            Kind::Damaged
        } else {
            Kind::Ended
        };
        Error::new(kind, words)
    }

    /// The refusal that an answer says, if it is one.
    pub(crate) fn refusal_in(answer: &str) -> Option<Error> {
        let (name, rest) = answer.split_once(' ').unwrap_or((answer, ""));
        let kind = match (name, rest.split(' ').next()) {
            ("refused", Some("E2" | "E5")) => Kind::Full,
            ("refused", Some("E6" | "E7")) => Kind::Failed,
            ("refused", Some("E21")) => Kind::NoTable,
            ("refused", Some("E22")) => Kind::TableExists,
            ("refused" | "fault", _) => Kind::Refused,
            _ => return None,
        };
        Some(Error::new(kind, answer))
    }

    /// What kind of thing went wrong.
    pub fn kind(&self) -> Kind {
        self.kind
    }
}

impl Display for Error {
    fn fmt(&self, f: &mut Formatter<'_>) -> fmt::Result {
        f.write_str(&self.words)
    }
}

impl std::error::Error for Error {}

impl From<io::Error> for Error {
    fn from(error: io::Error) -> Error {
        match error.raw_os_error() {
            Some(number) => Error::new(Kind::System(number), error.to_string()),
            None => Error::ended(error.to_string()),
        }
    }
}
