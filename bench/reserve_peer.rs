//! What `reserve` does with a file of withdrawals before it looks at a board, as a plain program of Rust's standard
//! library: a yardstick for bench/reserves, and nothing else.
//!
//!     reserve_peer FILE
//!     reserve_peer --peak PROGRAM WORDS..
//!
//! It reads the whole file, cuts it into lines and words, and writes how many lines withdraw somebody; a line that is
//! neither blank, a comment nor of two words ends it with 9. With `--peak` it runs a program, and writes the
//! kilobytes that this took at most on standard error: it is small itself, and a child's peak is never below that of
//! its parent.

extern "C" {
    fn getrusage(who: i32, usage: *mut [i64; 18]) -> i32;
}

/// Runs a program, and tells the peak of its memory in kilobytes, which Linux has as the fifth number of
/// `struct rusage`.
fn tell_peak(words: &[String]) {
    const CHILDREN: i32 = -1;
    let status = std::process::Command::new(&words[0]).args(&words[1..]).status();
    let mut usage = [0; 18];
    // SAFETY: the struct has two times of two numbers each and fourteen numbers behind them.
    unsafe { getrusage(CHILDREN, &mut usage) };
    eprintln!("{}", usage[4]);
    std::process::exit(status.ok().and_then(|status| status.code()).unwrap_or(1))
}

/// Whether a line withdraws somebody, where it is a line of the form.
fn withdraws(line: &[u8]) -> Option<bool> {
    let line = line.strip_suffix(b"\r").unwrap_or(line);
    let mut words = line.split(|b| *b == b' ' || *b == b'\t').filter(|word| !word.is_empty());
    match words.next() {
        None => Some(false),
        Some(first) if first[0] == b'#' => Some(false),
        Some(b"withdraw") if words.next().is_some() && words.next().is_none() => Some(true),
        Some(_) => None,
    }
}

fn main() {
    let words: Vec<String> = std::env::args().skip(1).collect();
    if words.len() > 1 && words[0] == "--peak" {
        tell_peak(&words[1..]);
    }
    let name = words.into_iter().next().unwrap_or_default();
    let Ok(bytes) = std::fs::read(&name) else { std::process::exit(4) };
    let mut count = 0;
    for line in bytes.split(|b| *b == b'\n') {
        match withdraws(line) {
            Some(one) => count += u64::from(one),
            None => std::process::exit(9),
        }
    }
    println!("{count}");
}
