//! The child process `bwlog serve`: lines are asked, and each has one line of answer.

use crate::{Error, Result};
use std::io::{BufRead, BufReader, Read, Write};
use std::os::unix::process::ExitStatusExt;
use std::process::{self, ChildStdin, ChildStdout, Command, Stdio};
use std::thread;

/// Why no request is answered after a call that was left.
const LEFT: &str = "a call has no answer: it was left before that was read, or goes on";
const CLOSED: &str = "the store was closed";
const NO_LINE: &str = "an answer that is no line";
/// What an empty pipe takes at once.
const AT_ONCE: usize = 4096;
/// No answer is longer: 1,024 pairs in hex have fewer bytes; of tables 1 MiB of pairs and one more.
const LONGEST: u64 = 1 << 21;
const LONGEST_OF_TABLES: u64 = 1 << 26;

/// A program that answers.
pub(crate) struct Child {
    process: process::Child,
    /// Both ways; none once it has ended.
    pipes: Option<(ChildStdin, BufReader<ChildStdout>)>,
    /// Why nothing is asked: it is set from before requests are written until the last answer was
    /// read, and from the end on.
    why: Option<Error>,
    /// Whether the child was waited for.
    is_closed: bool,
    /// Whether it serves tables.
    has_tables: bool,
}

impl Child {
    /// Begins a program, which may serve tables, and reads its first answer.
    pub fn begin(command: &mut Command, has_tables: bool) -> Result<Child> {
        let pipes = command.stdin(Stdio::piped()).stdout(Stdio::piped()).stderr(Stdio::piped());
        let mut process = pipes.spawn()?;
        let ways = process.stdin.take().zip(process.stdout.take().map(BufReader::new));
        let mut child = Child { process, pipes: ways, why: None, is_closed: false, has_tables };
        let answer = match child.line() {
            Ok(answer) => answer,
            Err(error) => return Err(child.end(error)),
        };
        match child.greeted(&answer) {
            Some(error) => Err(child.end(error)),
            None => Ok(child),
        }
    }

    /// What a first answer is refused for: it is `ready frame N protocol 1`, maybe with more after
    /// it; if tables are served, the word `tables`.
    fn greeted(&mut self, answer: &str) -> Option<Error> {
        let words: Vec<&str> = answer.split(' ').collect();
        match words.as_slice() {
            ["ready", "frame", _, "protocol", "1", rest @ ..] => {
                let is_other = self.has_tables && !rest.contains(&"tables");
                is_other.then(|| Error::ended(format!("no tables: {answer}")))
            }
            ["refused", ..] => {
                let words = self.last_words();
                Some(Error::end_by(if words.is_empty() { answer } else { &words }))
            }
            _ => Some(Error::ended(format!("no protocol 1: {answer}"))),
        }
    }

    /// The answers to these requests, lines with their ends: one each, refusals among them. They
    /// are read while the requests are written: neither pipe fills up for good.
    pub fn ask(&mut self, requests: &[u8], count: usize) -> Result<Vec<String>> {
        if let Some(why) = &self.why {
            return Err(why.clone());
        }
        self.why = Some(Error::ended(LEFT));
        let answers = if requests.len() <= AT_ONCE {
            self.ask_little(requests, count)
        } else {
            self.ask_much(requests, count)
        };
        let has_more = self.pipes.as_ref().is_some_and(|pipes| !pipes.1.buffer().is_empty());
        match answers {
            Ok(_) if has_more => Err(self.end(Error::ended("an answer that nobody asked for"))),
            Err(error) => Err(self.end(error)),
            Ok(answers) => {
                self.why = None;
                Ok(answers)
            }
        }
    }

    fn ask_little(&mut self, requests: &[u8], count: usize) -> Result<Vec<String>> {
        if let Some((input, _)) = &mut self.pipes {
            // If the child has ended, who reads the answers finds its end.
            let _ = input.write_all(requests);
        }
        (0..count).map(|_| self.line()).collect()
    }

    fn ask_much(&mut self, requests: &[u8], count: usize) -> Result<Vec<String>> {
        let Some((mut input, output)) = self.pipes.take() else {
            return Err(Error::ended(CLOSED));
        };
        let mut output = Some(output);
        let (input, answers) = thread::scope(|scope| {
            let writer = scope.spawn(move || {
                let _ = input.write_all(requests);
                input
            });
            let answers: Result<Vec<String>> =
                (0..count).map(|_| self.line_of(&mut output)).collect();
            if answers.is_err() {
                // Nobody reads the other answers: so the child ends, and whoever writes for it.
                output = None;
                let _ = self.process.kill();
            }
            (writer.join().ok(), answers)
        });
        self.pipes = input.zip(output);
        answers
    }

    /// The next answer.
    fn line(&mut self) -> Result<String> {
        let (input, output) = self.pipes.take().ok_or_else(|| Error::ended(CLOSED))?;
        let mut output = Some(output);
        let line = self.line_of(&mut output);
        self.pipes = output.map(|output| (input, output));
        line
    }

    /// The next answer. If there is none, the child's own words say why.
    fn line_of(&mut self, output: &mut Option<BufReader<ChildStdout>>) -> Result<String> {
        let mut line = Vec::new();
        let longest = if self.has_tables { LONGEST_OF_TABLES } else { LONGEST };
        let read = match output.as_mut() {
            Some(output) => output.take(longest).read_until(b'\n', &mut line)?,
            None => 0,
        };
        if read as u64 == longest || (line.last() == Some(&b'\n') && !is_text(&line)) {
            return Err(Error::ended(NO_LINE));
        }
        if line.pop() == Some(b'\n') {
            return String::from_utf8(line).map_err(|_| Error::ended(NO_LINE));
        }
        *output = None;
        let words = self.last_words();
        let status = self.process.wait()?;
        let number = status.code().unwrap_or_else(|| -status.signal().unwrap_or(0));
        Err(match words.is_empty() {
            true => Error::ended(format!("bwlog ended with status {number}")),
            false => Error::end_by(&words),
        })
    }

    /// What a child that ends has written on its standard error.
    fn last_words(&mut self) -> String {
        let mut words = Vec::new();
        if let Some(errors) = &mut self.process.stderr {
            let _ = errors.read_to_end(&mut words);
        }
        String::from_utf8_lossy(&words).trim().to_string()
    }

    /// Ends the exchanges, and gives why, which each later one is refused for.
    pub fn end(&mut self, why: Error) -> Error {
        self.pipes = None;
        self.why = Some(why.clone());
        why
    }

    /// The error of an answer that is none to its request.
    pub fn no_answer(&mut self, answer: &str) -> Error {
        let answer: String = answer.chars().take(200).collect();
        self.end(Error::ended(format!("no answer to a request: {answer}")))
    }

    /// Whether nothing is left of the child.
    pub fn is_closed(&self) -> bool {
        self.is_closed
    }

    /// Ends the child, which flushes nothing.
    pub fn abandon(&mut self) {
        self.end(Error::ended(CLOSED));
        self.process.stderr = None;
        let _ = self.process.wait();
        self.is_closed = true;
    }
}

impl Drop for Child {
    fn drop(&mut self) {
        self.abandon();
    }
}

/// Whether a line is text, but for its end.
fn is_text(line: &[u8]) -> bool {
    line[..line.len() - 1].iter().all(|byte| matches!(byte, b' '..=b'~'))
}
