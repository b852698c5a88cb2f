//! Answers requests of the table by the Rust client, a line each: ask PROGRAM. The words of pairs are
//! hex in both. With the feature `read` it asks readers too.

use hechdoram::{Batch, Error, Kind, Options, Pair, Result, Span, Store, TableBatch, TableStore};
use std::io::{self, BufRead, Write};
use std::process::Command;
use std::{env, fs, thread};

const NAMED: usize = 400;

fn bytes_of(word: &str) -> Vec<u8> {
    let digits: Vec<u8> = word.bytes().skip(2).map(|c| (c as char).to_digit(16).unwrap() as u8).collect();
    digits.chunks(2).map(|two| two[0] * 16 + two[1]).collect()
}

fn hex(bytes: &[u8]) -> String {
    "0x".to_string() + &bytes.iter().map(|byte| format!("{byte:02x}")).collect::<String>()
}

fn told(value: Option<Vec<u8>>) -> String {
    value.map_or("none".into(), |value| hex(&value))
}

fn pair_word((key, value): &Pair) -> String {
    format!("{}={}", hex(key), hex(value))
}

fn found(pair: Option<Pair>) -> String {
    pair.map_or("none".into(), |pair| format!("pair {}", pair_word(&pair)))
}

fn pairs_line(pairs: Vec<Pair>) -> String {
    pairs.iter().fold("pairs".into(), |line, pair| line + " " + &pair_word(pair))
}

fn values_line(values: Vec<Option<Vec<u8>>>) -> String {
    values.into_iter().fold("values".into(), |line, value| line + " " + &told(value))
}

/// The pair of this number, whose value says it.
fn named(index: usize) -> Pair {
    (format!("n{index:04}").into_bytes(), (index * 7919).to_string().into_bytes())
}

fn batch_of(words: &[&str]) -> Batch {
    let (mut batch, mut words) = (Batch::new(), words.iter());
    while let Some(word) = words.next() {
        let key = bytes_of(words.next().unwrap());
        match *word {
            "put" => batch.put(key, bytes_of(words.next().unwrap())),
            _ => batch.delete(key),
        };
    }
    batch
}

fn table_batch_of(words: &[&str]) -> TableBatch {
    let (mut batch, mut words) = (TableBatch::new(), words.iter());
    while let Some(word) = words.next() {
        let (table, key) = (bytes_of(words.next().unwrap()), bytes_of(words.next().unwrap()));
        match *word {
            "put" => batch.put(table, key, bytes_of(words.next().unwrap())),
            _ => batch.delete(table, key),
        };
    }
    batch
}

fn span_of(words: &[&str]) -> Span {
    let bound = |name: &str| words.iter().find_map(|word| word.strip_prefix(name)).map(bytes_of);
    let mut span = bound("prefix=").map_or(Span::all(), Span::prefix);
    if let Some(start) = bound("start=") {
        span = span.start(start);
    }
    if let Some(stop) = bound("stop=") {
        span = span.stop(stop);
    }
    span
}

struct Asked {
    program: String,
    folder: String,
    store: Option<Store>,
    tables: Option<TableStore>,
    #[cfg(feature = "read")]
    reader: Option<hechdoram::Reader>,
}

impl Asked {
    fn options(&self, words: &[&str]) -> Options {
        let mut options = Options::new().program(&self.program);
        for word in words {
            let (name, value) = word.split_once('=').unwrap();
            let number = value.parse().unwrap_or(0);
            options = match name {
                "program" => options.program(value),
                "capacity" => options.capacity(number),
                "segments" => options.segments(number),
                _ => options.most_segments(number),
            };
        }
        options
    }

    fn open(&self, folder: &str, words: &[&str]) -> Result<Store> {
        self.options(words).open(folder)
    }

    fn store(&self) -> Result<&Store> {
        self.store.as_ref().ok_or_else(|| panic!("no store was opened"))
    }

    fn do_topen(&mut self, folder: &str, words: &[&str]) -> Result<String> {
        (self.store, self.tables) = (None, None);
        self.tables = Some(self.options(words).open_tables(folder)?);
        Ok("opened".into())
    }

    /// Puts so many pairs in one batch, each seventh of them longer, and walks over them.
    fn do_tmany(&self, name: &[u8], count: usize) -> Result<String> {
        let tables = self.tables.as_ref().expect("no tables were opened");
        let value = |index: usize| index.to_string().repeat(if index % 7 == 0 { 700 } else { 1 }).into_bytes();
        let pairs: Vec<Pair> = (0..count).map(|index| (format!("key{index:08}").into_bytes(), value(index))).collect();
        let mut batch = TableBatch::new();
        for (key, value) in &pairs {
            batch.put(name, key, value);
        }
        tables.batch(&batch)?;
        assert!(tables.table(name).scan(Span::prefix("key")).collect::<Result<Vec<Pair>>>()? == pairs);
        Ok(format!("walked {count}"))
    }

    fn ask_tables(&self, words: &[&str]) -> Option<Result<String>> {
        let store = self.tables.as_ref()?;
        let word = |at: usize| words.get(at).map_or(Vec::new(), |word| bytes_of(word));
        let ok = |()| "ok".to_string();
        Some(match words[0] {
            "tables" => store.tables().map(|names| names.iter().fold("tables".to_string(), |line, name| line + " " + &hex(name))),
            "create" => store.create_table(word(1)).map(|table| {
                assert!(table.name() == word(1));
                "ok".into()
            }),
            "drop" => store.drop_table(word(1)).map(ok),
            "tput" => store.table(word(1)).put(word(2), word(3)).map(ok),
            "tdel" => store.table(word(1)).delete(word(2)).map(ok),
            "tget" => store.table(word(1)).get(word(2)).map(|value| value.map_or("none".into(), |value| format!("value {}", hex(&value)))),
            "tcount" => store.table(word(1)).count().map(|count| format!("count {count}")),
            "tnext" => store.table(word(1)).at_or_above(word(2)).map(found),
            "tscan" => store.table(word(1)).scan(span_of(&words[2..])).collect::<Result<_>>().map(pairs_line),
            "tbatch" => store.batch(&table_batch_of(&words[1..])).map(ok),
            "tmany" => self.do_tmany(&word(1), words[2].parse().unwrap()),
            "keep" => store.keep().map(|frame| frame.map_or("no frame".into(), |frame| format!("frame {frame}"))),
            "reopen" => store.reopen().map(|found| format!("reopened frame {} lost {}", found.frame, found.lost)),
            "close" => store.close().map(|()| "closed".into()),
            "abandon" => {
                store.abandon();
                Ok("abandoned".into())
            }
            _ => return None,
        })
    }

    fn do_open(&mut self, folder: &str, words: &[&str]) -> Result<String> {
        self.folder = folder.to_string();
        self.tables = None;
        if let Some(store) = &self.store {
            store.abandon();
        }
        self.store = Some(self.open(folder, words)?);
        Ok("opened".into())
    }

    fn do_other(&self, words: &[&str]) -> Result<String> {
        let other = self.open(words[1], &[])?;
        if words[0] == "append" {
            other.put(bytes_of(words[2]), bytes_of(words[3]))?;
        }
        other.close()?;
        Ok(if words[0] == "append" { "ok" } else { "opened" }.into())
    }

    fn do_fill(&self) -> Result<String> {
        for index in 0.. {
            self.store()?.put(format!("fill{index:05}"), [b'v'; 500])?;
        }
        Ok("not full".into())
    }

    /// Keeps so many records over a stop, and walks them from both ends.
    fn do_many(&mut self, count: usize) -> Result<String> {
        let key = |index: usize| format!("key{:08}", index * 7919 % count).into_bytes();
        let mut pairs: Vec<Pair> = (0..count).map(|index| (key(index), index.to_string().into_bytes())).collect();
        self.store()?.put_many(pairs.iter().map(|pair| (&pair.0, &pair.1)))?;
        self.store()?.close()?;
        self.do_open(&self.folder.clone(), &[])?;
        pairs.sort();
        assert!(self.store()?.scan(Span::all()).collect::<Result<Vec<Pair>>>()? == pairs);
        let back: Vec<Pair> = self.store()?.scan(Span::all()).rev().take(2000).collect::<Result<_>>()?;
        assert!(pairs.iter().rev().take(2000).eq(&back));
        // Both ends of one walk meet.
        let mut scan = self.store()?.scan(Span::prefix("key0000000"));
        let mut met = Vec::new();
        while let Some(pair) = scan.next() {
            met.push(pair?);
            met.extend(scan.next_back().transpose()?);
        }
        met.sort();
        assert!(met == pairs[..10.min(count)]);
        Ok(format!("kept {}", self.store()?.count()?))
    }

    /// Four threads over one store: each has the answers of its own requests.
    fn do_threads(&self, count: usize) -> Result<String> {
        let pairs: Vec<Pair> = (0..NAMED).map(named).collect();
        let store = self.store()?;
        store.put_many(pairs.iter().map(|pair| (&pair.0, &pair.1)))?;
        thread::scope(|scope| {
            for first in (0..NAMED).step_by(NAMED / 4) {
                let pairs = &pairs;
                scope.spawn(move || {
                    for index in 0..count {
                        let (key, value) = &pairs[(first + index) % NAMED];
                        assert_eq!(store.get(key).unwrap().as_ref(), Some(value));
                        if index % 500 == 0 {
                            assert_eq!(store.get_many([key; 20]).unwrap(), vec![Some(value.clone()); 20]);
                        }
                    }
                });
            }
        });
        Ok("right".into())
    }

    fn ask_store(&mut self, words: &[&str]) -> Result<String> {
        let store = self.store()?;
        let key = words.get(1).filter(|word| word.starts_with("0x")).map(|word| bytes_of(word));
        let key = key.unwrap_or_default();
        let line = match words[0] {
            "put" => store.put(key, bytes_of(words[2])).map(|()| "ok".into()),
            "del" => store.delete(key).map(|()| "ok".into()),
            "get" => store.get(key).map(|value| value.map_or("none".into(), |value| format!("value {}", hex(&value)))),
            "puts" => {
                let data: Vec<Vec<u8>> = words[1..].iter().map(|word| bytes_of(word)).collect();
                store.put_many(data.chunks(2).map(|two| (&two[0], &two[1]))).map(|()| "ok".into())
            }
            "gets" => store.get_many(words[1..].iter().map(|word| bytes_of(word))).map(values_line),
            "group" => store.group(&batch_of(&words[1..])).map(|()| "ok".into()),
            "batch" => store.batch(&batch_of(&words[1..])).map(|()| "ok".into()),
            "scan" if words.contains(&"reverse") => store.scan(span_of(words)).rev().collect::<Result<_>>().map(pairs_line),
            "scan" => store.scan(span_of(words)).collect::<Result<_>>().map(pairs_line),
            "next" => store.at_or_above(key).map(found),
            "prev" => store.at_or_below(key).map(found),
            "below" => store.below(key).map(found),
            "count" => store.count().map(|count| format!("count {count}")),
            "keep" => store.keep().map(|frame| frame.map_or("no frame".into(), |frame| format!("frame {frame}"))),
            "reopen" => store.reopen().map(|found| format!("reopened frame {} lost {}", found.frame, found.lost)),
            "stats" => store.stats().map(|found| format!("stats durable {} failed {}", found.durable, u8::from(found.failed))),
            "clean" => store.clean().map(|won| format!("won {won}")),
            "add" => store.add().map(|segment| format!("added {segment}")),
            "backup" => store.backup(words[1]).map(|found| format!("copied frame {} pages {} pairs {}", found.frame, found.pages, found.pairs)),
            "close" => store.close().map(|()| "closed".into()),
            "abandon" => {
                store.abandon();
                Ok("abandoned".into())
            }
            other => panic!("no request {other}"),
        };
        line
    }

    #[cfg(feature = "read")]
    fn ask_reader(&mut self, words: &[&str]) -> Option<Result<String>> {
        if words[0] == "read" {
            self.reader = None;
            let reader = hechdoram::Reader::open(words[1]);
            return Some(reader.map(|reader| {
                self.reader = Some(reader);
                "read".into()
            }));
        }
        let reader = self.reader.as_mut()?;
        let key = || bytes_of(words[1]);
        Some(Ok(match words[0] {
            "refresh" => return Some(reader.refresh().map(|()| "refreshed".into())),
            "get" => reader.get(key()).map_or("none".into(), |value| format!("value {}", hex(&value))),
            "gets" => values_line(reader.get_many(words[1..].iter().map(|word| bytes_of(word)))),
            "scan" if words.contains(&"reverse") => pairs_line(reader.scan(span_of(words)).rev().collect()),
            "scan" => pairs_line(reader.scan(span_of(words)).collect()),
            "next" => found(reader.at_or_above(key())),
            "prev" => found(reader.at_or_below(key())),
            "below" => found(reader.below(key())),
            "count" => format!("count {}", reader.count()),
            "close" => "closed".into(),
            _ => return None,
        }))
    }

    fn answer(&mut self, words: &[&str]) -> Result<String> {
        match words[0] {
            "open" => {
                #[cfg(feature = "read")]
                {
                    self.reader = None;
                }
                return self.do_open(words[1], &words[2..]);
            }
            "topen" => return self.do_topen(words[1], &words[2..]),
            "kill" => {
                let number = fs::read_to_string(words[1]).unwrap();
                assert!(Command::new("kill").args(["-9", number.trim()]).status().unwrap().success());
                return Ok("killed".into());
            }
            "other" | "append" => return self.do_other(words),
            "fill" => return self.do_fill(),
            "many" => return self.do_many(words[1].parse().unwrap()),
            "threads" => return self.do_threads(words[1].parse().unwrap()),
            _ => {}
        }
        if let Some(answer) = self.ask_tables(words) {
            return answer;
        }
        #[cfg(feature = "read")]
        if let Some(answer) = self.ask_reader(words) {
            return answer;
        }
        self.ask_store(words)
    }
}

fn error_line(error: Error) -> String {
    match error.kind() {
        Kind::System(number) => {
            let words = io::Error::from_raw_os_error(number).to_string();
            format!("error System {}", words.split(" (os").next().unwrap_or_default())
        }
        kind => format!("error {kind:?} {error}"),
    }
}

fn main() {
    let mut asked = Asked {
        program: env::args().nth(1).unwrap(),
        folder: String::new(),
        store: None,
        tables: None,
        #[cfg(feature = "read")]
        reader: None,
    };
    for line in io::stdin().lock().lines().map_while(io::Result::ok) {
        let words: Vec<&str> = line.split_whitespace().collect();
        let answer = asked.answer(&words).unwrap_or_else(error_line);
        println!("{answer}");
        io::stdout().flush().unwrap();
    }
}
