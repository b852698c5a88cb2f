//! Answers questions about a folder, a line each, as ask.c does.

use hechdoram::{Error, Kind, Pair, Reader, Span};
use std::io::{self, BufRead, Write};
use std::{env, process, thread};

fn bytes_of(word: &str) -> Vec<u8> {
    let digits: Vec<u8> = word.bytes().map(|c| (c as char).to_digit(16).unwrap_or(0) as u8).collect();
    digits.chunks(2).map(|two| two[0] * 16 + two[1]).collect()
}

fn hex(bytes: &[u8]) -> String {
    bytes.iter().map(|byte| format!("{byte:02x}")).collect()
}

fn pair_line((key, value): &Pair) -> String {
    format!("pair {} {}\n", hex(key), hex(value))
}

fn answer(reader: &Reader, line: &str) -> String {
    let (word, rest) = line.split_once(' ').unwrap_or((line, ""));
    let bytes = bytes_of(rest);
    match word {
        "get" => reader.get(&bytes).map_or("none\n".into(), |value| format!("value {}\n", hex(&value))),
        "at" => reader.at_or_above(&bytes).map_or("none\n".into(), |pair| pair_line(&pair)),
        "below" => reader.below(&bytes).map_or("none\n".into(), |pair| pair_line(&pair)),
        "walk" => reader.scan(Span::prefix(&bytes)).map(|pair| pair_line(&pair)).collect::<String>() + "end\n",
        _ => format!("count {}\n", reader.count()),
    }
}

fn number(error: &Error) -> i32 {
    match error.kind() {
        Kind::NoMemory => -1,
        Kind::NoStore => -12,
        Kind::Damaged => -13,
        Kind::System(_) => -15,
        Kind::InUse => -16,
        _ => -17,
    }
}

fn main() {
    let folder = env::args().nth(1).unwrap_or_default();
    let reader = match Reader::open(&folder) {
        Ok(reader) => reader,
        Err(error) => {
            println!("refused {}", number(&error));
            process::exit(if error.to_string().is_empty() { 4 } else { 3 });
        }
    };
    // Several threads may ask it at once.
    let seen: Vec<Pair> = reader.scan(Span::all()).collect();
    thread::scope(|threads| {
        for _ in 0..4 {
            threads.spawn(|| {
                assert!(reader.scan(Span::all()).eq(seen.iter().cloned()));
                assert!(reader.scan(Span::all()).rev().eq(seen.iter().rev().cloned()));
                assert!(seen.iter().all(|pair| reader.get(&pair.0).as_ref() == Some(&pair.1)));
            });
        }
    });
    // It may go to another thread.
    let reader = thread::spawn(move || {
        assert_eq!((&reader).into_iter().count() as u64, reader.count());
        reader
    });
    let reader = reader.join().expect("a thread ended well");
    let mut out = io::BufWriter::new(io::stdout().lock());
    for line in io::stdin().lock().lines().map_while(Result::ok) {
        out.write_all(answer(&reader, &line).as_bytes()).expect("written");
    }
}
