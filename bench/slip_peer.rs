//! What `check` does, as a plain program of Rust's standard library: a yardstick for bench/slips, and nothing else.
//!
//!     slip_peer FILE
//!     slip_peer --peak PROGRAM WORDS..
//!
//! It shares no line with the program. It reads the whole file, looks each line up by hash maps, and answers with the same
//! text and exit status. With `--peak` it runs a program, and writes the kilobytes that this took at most on standard error:
//! it is small itself, and a child's peak is never below that of its parent.

use std::collections::{HashMap, HashSet};

const DOLLAR: u64 = 1_000_000;
const MOST: usize = 16_777_216;

extern "C" {
    fn getrusage(who: i32, usage: *mut [i64; 18]) -> i32;
}

/// Runs a program, and tells the peak of its memory in kilobytes, which Linux has as the fifth number of `struct rusage`.
fn tell_peak(words: &[String]) {
    const CHILDREN: i32 = -1;
    let status = std::process::Command::new(&words[0]).args(&words[1..]).status();
    let mut usage = [0; 18];
    // SAFETY: the struct has two times of two numbers each and fourteen numbers behind them.
    unsafe { getrusage(CHILDREN, &mut usage) };
    eprintln!("{}", usage[4]);
    std::process::exit(status.ok().and_then(|status| status.code()).unwrap_or(1))
}

fn main() {
    let words: Vec<String> = std::env::args().skip(1).collect();
    if words.len() > 1 && words[0] == "--peak" {
        tell_peak(&words[1..]);
    }
    let name = words.into_iter().next().unwrap_or_default();
    let Ok(bytes) = std::fs::read(&name) else { std::process::exit(4) };
    if bytes.len() > MOST {
        println!("too-long");
        std::process::exit(8);
    }
    match check(&bytes) {
        Ok((worth, printed, _)) if worth == printed => println!("slip yes"),
        Ok((worth, _, den)) => {
            println!("wrong {worth}/{den}");
            std::process::exit(10)
        }
        Err(line) => {
            println!("bad slip {line}");
            std::process::exit(9)
        }
    }
}

/// The worth of a slip, the chance that it prints and the denominator; or the line that is off the form.
fn check(bytes: &[u8]) -> Result<(u64, u64, u64), u64> {
    let mut lines = bytes.split_inclusive(|b| *b == b'\n').map(|line| line.strip_suffix(b"\n"));
    let head = lines.next().flatten().ok_or(1_u64)?;
    let (name, printed, den) = head_of(head).ok_or(1_u64)?;
    let sizes = lines.next().flatten().ok_or(2_u64)?;
    let (seats, persons) = sizes_of(sizes).ok_or(2_u64)?;
    if den != (persons * DOLLAR).to_string().as_bytes() {
        return Err(2);
    }
    let mut members: HashMap<&[u8], usize> = HashMap::new();
    let mut voters: HashSet<&[u8]> = HashSet::new();
    let mut scores: Vec<u64> = Vec::new();
    let mut number = 2;
    for line in lines {
        number += 1;
        let line = line.ok_or(number)?;
        let mut words = Words(Some(line));
        match words.next() {
            Some(b"member") => {
                let member = words.next().filter(|w| is_name(w)).ok_or(number)?;
                let new = scores.len() < 1_000 && voters.is_empty() && words.0.is_none();
                if !new || members.insert(member, scores.len()).is_some() {
                    return Err(number);
                }
                scores.push(0);
            }
            Some(b"ballot") => {
                let person = words.next().filter(|w| is_name(w)).ok_or(number)?;
                if scores.is_empty() || voters.len() == 1_000 || !voters.insert(person) {
                    return Err(number);
                }
                take(words, &members, &mut scores).ok_or(number)?;
            }
            _ => return Err(number),
        }
    }
    if scores.is_empty() {
        return Err(number + 1);
    }
    let worth = members.get(name).map_or(0, |at| worth_of(&scores, *at, seats, persons * DOLLAR));
    Ok((worth, printed, persons * DOLLAR))
}

/// Words with one space between two, none of them empty; an empty one ends up as no name and no number.
struct Words<'a>(Option<&'a [u8]>);

impl<'a> Iterator for Words<'a> {
    type Item = &'a [u8];

    fn next(&mut self) -> Option<&'a [u8]> {
        let line = self.0?;
        match line.iter().position(|b| *b == b' ') {
            Some(at) => {
                self.0 = Some(&line[at + 1..]);
                Some(&line[..at])
            }
            None => {
                self.0 = None;
                Some(line)
            }
        }
    }
}

fn head_of(line: &[u8]) -> Option<(&[u8], u64, &[u8])> {
    let mut words = Words(Some(line));
    let (slip, name, chance, share) = (words.next()?, words.next()?, words.next()?, words.next()?);
    let cut = share.iter().position(|b| *b == b'/')?;
    let printed = number(&share[..cut])?;
    let den = &share[cut + 1..];
    let formed = slip == b"slip" && is_name(name) && chance == b"chance" && is_canonical(den) && words.0.is_none();
    formed.then_some((name, printed, den))
}

fn sizes_of(line: &[u8]) -> Option<(u64, u64)> {
    let mut words = Words(Some(line));
    let (a, seats, b, persons) = (words.next()?, words.next()?, words.next()?, words.next()?);
    let (seats, persons) = (number(seats)?, number(persons)?);
    let within = (1..=1_000).contains(&seats) && (1..=1_000).contains(&persons);
    (a == b"seats" && b == b"persons" && within && words.0.is_none()).then_some((seats, persons))
}

/// Adds the cents of a ballot to the scores of the members.
fn take(words: Words, members: &HashMap<&[u8], usize>, scores: &mut [u64]) -> Option<()> {
    let mut cells: Vec<(&[u8], u64)> = Vec::new();
    let mut seen: HashSet<&[u8]> = HashSet::new();
    for word in words {
        let cut = word.iter().position(|b| *b == b':')?;
        let points = number(&word[cut + 1..]).filter(|p| *p <= 100)?;
        if cells.len() == 100 || !is_name(&word[..cut]) || !seen.insert(&word[..cut]) {
            return None;
        }
        cells.push((&word[..cut], points));
    }
    if cells.is_empty() {
        return None;
    }
    if cells.iter().all(|cell| cell.1 == 0) {
        cells.iter_mut().for_each(|cell| cell.1 = 1);
    }
    let sum: u64 = cells.iter().map(|cell| cell.1).sum();
    let mut cents: Vec<u64> = cells.iter().map(|cell| DOLLAR * cell.1 / sum).collect();
    let left = (DOLLAR - cents.iter().sum::<u64>()) as usize;
    let mut order: Vec<usize> = (0..cells.len()).collect();
    order.sort_by_key(|at| std::cmp::Reverse(DOLLAR * cells[*at].1 % sum));
    order[..left].iter().for_each(|at| cents[*at] += 1);
    for (cell, cents) in cells.iter().zip(cents) {
        if let Some(at) = members.get(cell.0) {
            scores[*at] += cents;
        }
    }
    Some(())
}

/// How many draws give the member at an index a seat.
fn worth_of(scores: &[u64], at: usize, seats: u64, den: u64) -> u64 {
    let before = |other: &usize| scores[*other] > scores[at] || scores[*other] == scores[at] && *other < at;
    let rank = 1 + (0..scores.len()).filter(before).count() as u64;
    let quota = seats * scores.iter().sum::<u64>();
    match quota / den {
        whole if rank <= whole => den,
        whole if rank == whole + 1 => quota % den,
        _ => 0,
    }
}

fn is_name(word: &[u8]) -> bool {
    (1..=24).contains(&word.len())
        && word[0].is_ascii_lowercase()
        && word.iter().all(|b| b.is_ascii_lowercase() || b.is_ascii_digit() || *b == b'-')
}

fn is_canonical(word: &[u8]) -> bool {
    !word.is_empty() && word.iter().all(u8::is_ascii_digit) && (word.len() == 1 || word[0] != b'0')
}

fn number(word: &[u8]) -> Option<u64> {
    if !is_canonical(word) {
        return None;
    }
    std::str::from_utf8(word).ok()?.parse().ok()
}
