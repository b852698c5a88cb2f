//! How a line spells keys and values.

use crate::{Error, Kind, Pair, Result, MAX_KEY, MAX_VALUE};

/// Whether a pair may have this key.
pub(crate) fn is_key(key: &[u8]) -> bool {
    (1..=MAX_KEY).contains(&key.len())
}

/// Refuses a pair that no store may have.
pub(crate) fn check(key: &[u8], value: &[u8]) -> Result<()> {
    if !is_key(key) {
        return Err(Error::new(Kind::TooLong, "a key has 1 to 128 bytes"));
    }
    if value.len() > MAX_VALUE {
        return Err(Error::new(Kind::TooLong, "a value has 0 to 512 bytes"));
    }
    Ok(())
}

/// Whether a word is its own bytes: printable, and not taken for hex.
fn is_plain(bytes: &[u8]) -> bool {
    !bytes.is_empty() && !bytes.starts_with(b"0x") && bytes.iter().all(u8::is_ascii_graphic)
}

/// Adds a blank and the word of these bytes.
pub(crate) fn push_word(line: &mut Vec<u8>, bytes: &[u8]) {
    const DIGITS: &[u8; 16] = b"0123456789abcdef";
    line.push(b' ');
    if is_plain(bytes) {
        line.extend_from_slice(bytes);
        return;
    }
    line.extend_from_slice(b"0x");
    for byte in bytes {
        line.extend([DIGITS[usize::from(byte >> 4)], DIGITS[usize::from(byte & 15)]]);
    }
}

/// Adds a change: a put, or a delete if there is no value.
pub(crate) fn push_change(line: &mut Vec<u8>, key: &[u8], value: Option<&[u8]>) {
    line.extend_from_slice(if value.is_some() { b"put" } else { b"del" });
    push_word(line, key);
    if let Some(value) = value {
        push_word(line, value);
    }
}

/// The line of a request about a key.
pub(crate) fn line_of(name: &str, key: &[u8]) -> Vec<u8> {
    let mut line = name.as_bytes().to_vec();
    push_word(&mut line, key);
    line
}

/// The bytes that a word of an answer stands for.
fn bytes_of(word: &str) -> Option<Vec<u8>> {
    let Some(digits) = word.strip_prefix("0x") else {
        return (!word.is_empty()).then(|| word.as_bytes().to_vec());
    };
    if digits.len() % 2 != 0 {
        return None;
    }
    let digit = |byte: u8| char::from(byte).to_digit(16);
    let two = |two: &[u8]| Some((digit(two[0])? * 16 + digit(two[1])?) as u8);
    digits.as_bytes().chunks(2).map(two).collect()
}

/// The value of an answer, or none; `None` of what is no answer to a look-up.
pub(crate) fn value_in(answer: &str) -> Option<Option<Vec<u8>>> {
    if answer == "none" {
        return Some(None);
    }
    answer.strip_prefix("value ").and_then(bytes_of).map(Some)
}

/// The values of an answer to so many keys: a word for each, or `=` of one that has none; `None` of
/// what is no answer to that.
pub(crate) fn values_in(answer: &str, count: usize) -> Option<Vec<Option<Vec<u8>>>> {
    let mut words = answer.strip_prefix("values ")?.split(' ');
    let mut values = Vec::with_capacity(count);
    for word in words.by_ref().take(count) {
        values.push(if word == "=" { None } else { Some(bytes_of(word)?) });
    }
    (values.len() == count && words.next().is_none()).then_some(values)
}

/// The pair of a word `k=v`.
fn pair_of(word: &str) -> Option<Pair> {
    let (key, value) = word.split_once('=')?;
    Some((bytes_of(key)?, bytes_of(value)?))
}

/// The pair of an answer, or none; `None` of what is no answer to such a request.
pub(crate) fn pair_in(answer: &str) -> Option<Option<Pair>> {
    if answer == "none" {
        return Some(None);
    }
    answer.strip_prefix("pair ").and_then(pair_of).map(Some)
}

/// The pairs of an answer.
pub(crate) fn pairs_in(answer: &str) -> Option<Vec<Pair>> {
    let mut words = answer.strip_prefix("pairs ")?.split(' ');
    let count: usize = words.next()?.parse().ok()?;
    let pairs: Vec<Pair> = words.map(pair_of).collect::<Option<_>>()?;
    (pairs.len() == count).then_some(pairs)
}

/// The pairs of an answer about a table, and whether it ended for its length.
pub(crate) fn rows_in(answer: &str) -> Option<(Vec<Pair>, bool)> {
    match answer.strip_suffix(" more") {
        Some(front) => Some((pairs_in(front)?, true)),
        None => Some((pairs_in(answer)?, false)),
    }
}

/// The names of an answer.
pub(crate) fn names_in(answer: &str) -> Option<Vec<Vec<u8>>> {
    let mut words = answer.strip_prefix("tables ")?.split(' ');
    let count: usize = words.next()?.parse().ok()?;
    let names: Vec<Vec<u8>> = words.map(bytes_of).collect::<Option<_>>()?;
    (names.len() == count).then_some(names)
}

/// The number after a word of an answer.
pub(crate) fn number_in(answer: &str, name: &str) -> Option<u64> {
    let mut words = answer.split(' ').skip_while(|word| *word != name);
    words.nth(1)?.parse().ok()
}
