//! What `join` does, as a plain program of Rust's standard library: a yardstick for bench/joins, and nothing else.
//!
//!     join_peer FILE FILE
//!
//! It shares no line with the program. It reads both files, checks each line, keeps its words where they stand, and
//! merges.

use std::io::Write;

const MOST: usize = 16_777_216;

/// A line with its words.
struct Entry<'a> {
    key: (&'a [u8], &'a [u8]),
    review: (u64, u64),
    line: &'a [u8],
}

fn is_name(word: &[u8]) -> bool {
    (1..=24).contains(&word.len())
        && word[0].is_ascii_lowercase()
        && word.iter().all(|b| b.is_ascii_lowercase() || b.is_ascii_digit() || *b == b'-')
}

fn number(word: &[u8], most: u64) -> Option<u64> {
    if word.is_empty() || (word.len() > 1 && word[0] == b'0') || !word.iter().all(u8::is_ascii_digit) {
        return None;
    }
    std::str::from_utf8(word).ok()?.parse().ok().filter(|number| *number <= most)
}

fn entry(line: &[u8]) -> Option<Entry<'_>> {
    let mut words = line.split(|b| *b == b' ');
    if words.next()? != b"entry" {
        return None;
    }
    let key = (words.next()?, words.next()?);
    let review = (number(words.next()?, u64::MAX)?, number(words.next()?, 100)?);
    (words.next().is_none() && is_name(key.0) && is_name(key.1)).then_some(Entry { key, review, line })
}

/// The entries of a file, or the number of its first line off the form.
fn read(bytes: &[u8]) -> Result<Vec<Entry<'_>>, usize> {
    let mut entries: Vec<Entry<'_>> = Vec::new();
    let mut rest = bytes;
    while !rest.is_empty() {
        let bad = entries.len() + 1;
        let end = rest.iter().position(|b| *b == b'\n').ok_or(bad)?;
        let next = entry(&rest[..end]).ok_or(bad)?;
        if entries.last().is_some_and(|last| last.key >= next.key) {
            return Err(bad);
        }
        entries.push(next);
        rest = &rest[end + 1..];
    }
    Ok(entries)
}

fn fail(text: &str, status: i32) -> ! {
    println!("{text}");
    std::process::exit(status)
}

fn main() {
    let names: Vec<String> = std::env::args().skip(1).collect();
    let mut files = Vec::new();
    for name in &names {
        let Ok(bytes) = std::fs::read(name) else { std::process::exit(4) };
        if bytes.len() > MOST {
            fail("too-long", 8);
        }
        files.push(bytes);
    }
    let mut desks = Vec::new();
    for (index, bytes) in files.iter().enumerate() {
        match read(bytes) {
            Ok(entries) => desks.push(entries),
            Err(line) => fail(&format!("bad desk {} {line}", index + 1), 9),
        }
    }
    let (one, other) = (&desks[0], &desks[1]);
    let mut out = Vec::new();
    let (mut i, mut j) = (0, 0);
    while i < one.len() || j < other.len() {
        let first = j == other.len() || (i < one.len() && one[i].key < other[j].key);
        let second = i == one.len() || (j < other.len() && other[j].key < one[i].key);
        let taken = if first || (!second && one[i].review >= other[j].review) { &one[i] } else { &other[j] };
        out.extend_from_slice(taken.line);
        out.push(b'\n');
        i += usize::from(!second);
        j += usize::from(!first);
    }
    if std::io::stdout().write_all(&out).is_err() {
        std::process::exit(5);
    }
}
