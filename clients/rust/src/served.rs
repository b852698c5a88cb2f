//! What every store has that a child process `bwlog serve` serves, of pairs or of tables.

use crate::child::Child;
use crate::words::{number_in, push_word};
use crate::{Error, Result};
use std::ffi::OsString;
use std::os::unix::ffi::OsStrExt;
use std::path::{Path, PathBuf};
use std::process::Command;
use std::sync::{Mutex, MutexGuard, PoisonError};

/// What `reopen` found.
#[derive(Debug, Clone, Copy, PartialEq, Eq)]
pub struct Reopened {
    /// The last frame of the folder; 0 of an empty store.
    pub frame: u64,
    /// How many changes that had been taken are gone, since no frame has them. Of tables these are
    /// records of the store below: a long value has one for each 512 bytes.
    pub lost: u64,
}

/// What a backup holds.
#[derive(Debug, Clone, Copy, PartialEq, Eq)]
pub struct Copied {
    pub frame: u64,
    pub pages: u64,
    pub pairs: u64,
}

/// The store's numbers.
#[derive(Debug, Clone, Copy, PartialEq, Eq)]
#[non_exhaustive]
pub struct Stats {
    /// How many changes this run took.
    pub history: u64,
    /// The last frame.
    pub durable: u64,
    pub segments: u64,
    pub spares: u64,
    pub pages: u64,
    /// Whether a write failed: `reopen`.
    pub failed: bool,
}

/// The store of a folder, over the child process that serves it.
pub(crate) struct Served {
    child: Mutex<Child>,
}

impl Served {
    /// Opens the store of a folder, which is made if it is missing.
    pub fn open(
        program: Option<&PathBuf>,
        folder: &Path,
        numbers: &[(&'static str, u64)],
        has_tables: bool,
    ) -> Result<Served> {
        let mut dir = OsString::from("--dir=");
        dir.push(folder);
        let mut command = Command::new(program.map_or(Path::new("bwlog"), PathBuf::as_path));
        command.arg("serve").arg(dir).args(has_tables.then_some("--tables"));
        command.args(numbers.iter().map(|(name, number)| format!("--{name}={number}")));
        let child = Mutex::new(Child::begin(&mut command, has_tables)?);
        Ok(Served { child })
    }

    /// A call that was left is noted in the child itself.
    pub fn child(&self) -> MutexGuard<'_, Child> {
        self.child.lock().unwrap_or_else(PoisonError::into_inner)
    }

    /// Asks one request, and reads its answer by this.
    pub fn ask<T>(&self, line: &[u8], read: impl Fn(&str) -> Option<T>) -> Result<T> {
        let answers = self.burst(&mut self.child(), &[line.to_vec()], read)?;
        answers.into_iter().next().ok_or_else(|| Error::ended("no answer"))
    }

    /// Asks many requests. All answers are read before the first refusal is returned.
    pub fn burst<T>(
        &self,
        child: &mut Child,
        lines: &[Vec<u8>],
        read: impl Fn(&str) -> Option<T>,
    ) -> Result<Vec<T>> {
        let mut requests = lines.join(&b'\n');
        requests.extend_from_slice(if lines.is_empty() { b"" } else { b"\n" });
        let answers = child.ask(&requests, lines.len())?;
        if let Some(error) = answers.iter().find_map(|answer| Error::refusal_in(answer)) {
            return Err(error);
        }
        let mut found = Vec::with_capacity(answers.len());
        for answer in &answers {
            found.push(read(answer).ok_or_else(|| child.no_answer(answer))?);
        }
        Ok(found)
    }

    // What both kinds of stores have, and say.

    pub fn keep(&self) -> Result<Option<u64>> {
        self.ask(b"flush", kept_in)
    }

    pub fn reopen(&self) -> Result<Reopened> {
        self.ask(b"reopen", |answer| {
            let (frame, lost) = (number_in(answer, "frame")?, number_in(answer, "lost")?);
            Some(Reopened { frame, lost })
        })
    }

    pub fn stats(&self) -> Result<Stats> {
        self.ask(b"stats", |answer| {
            Some(Stats {
                history: number_in(answer, "history")?,
                durable: number_in(answer, "durable")?,
                segments: number_in(answer, "segments")?,
                spares: number_in(answer, "spares")?,
                pages: number_in(answer, "pages")?,
                failed: answer.split(' ').any(|word| word == "failed"),
            })
        })
    }

    pub fn clean(&self) -> Result<u64> {
        self.ask(b"clean", |answer| number_in(answer, "won"))
    }

    pub fn add(&self) -> Result<u64> {
        self.ask(b"add", |answer| number_in(answer, "added"))
    }

    pub fn backup(&self, to: &Path) -> Result<Copied> {
        let mut line = b"backup".to_vec();
        push_word(&mut line, to.as_os_str().as_bytes());
        self.ask(&line, |answer| {
            Some(Copied {
                frame: number_in(answer, "frame")?,
                pages: number_in(answer, "pages")?,
                pairs: number_in(answer, "pairs")?,
            })
        })
    }

    pub fn close(&self) -> Result<()> {
        let mut child = self.child();
        if !child.is_closed() {
            self.burst(&mut child, &[b"flush".to_vec()], kept_in)?;
            self.burst(&mut child, &[b"quit".to_vec()], |answer| (answer == "bye").then_some(()))?;
            child.abandon();
        }
        Ok(())
    }

    pub fn abandon(&self) {
        self.child().abandon();
    }
}

pub(crate) fn ok_in(answer: &str) -> Option<()> {
    (answer == "ok").then_some(())
}

/// The frame of an answer to a flush, or none if nothing was new.
fn kept_in(answer: &str) -> Option<Option<u64>> {
    if answer == "no frame" {
        return Some(None);
    }
    number_in(answer, "frame").map(Some)
}
