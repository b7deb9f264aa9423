//! Compares two outcome texts case by case.

use std::fs::File;
use std::io::{self, BufRead, BufReader};
use std::path::Path;

struct Cases {
    from: BufReader<File>,
}

impl Cases {
    fn open(path: &Path) -> io::Result<Self> {
        Ok(Self {
            from: BufReader::with_capacity(1 << 20, File::open(path)?),
        })
    }

    /// The lines of the next case, `end` included; empty at the end of the
    /// text. A `bad` line is a case of its own.
    fn next(&mut self, to: &mut Vec<u8>) -> io::Result<()> {
        to.clear();
        loop {
            let from = to.len();
            if self.from.read_until(b'\n', to)? == 0 {
                return Ok(());
            }
            let line = &to[from..];
            if line == b"end\n" || line.starts_with(b"bad ") {
                return Ok(());
            }
        }
    }
}

fn show(label: &str, a: &[u8], b: &[u8]) {
    let a = String::from_utf8_lossy(a);
    let b = String::from_utf8_lossy(b);
    let name = a.lines().chain(b.lines()).next().unwrap_or("");
    println!("first difference: {label}{name}");
    let (mut a, mut b) = (a.lines(), b.lines());
    let mut place = String::new();
    let (mut call, mut shown) = (0, 0);
    loop {
        let (left, right) = (a.next(), b.next());
        if left.is_none() && right.is_none() {
            return;
        }
        if left == right {
            if let Some(line) = left
                && line.starts_with("call ")
            {
                call += 1;
                place = format!("in its call number {call} ({line})");
            }
            continue;
        }
        if !place.is_empty() {
            println!("  {place}");
            place.clear();
        }
        println!("  A {}", left.unwrap_or("(nothing)"));
        println!("  B {}", right.unwrap_or("(nothing)"));
        shown += 1;
        if shown == 40 {
            println!("  ...");
            return;
        }
    }
}

/// Prints the first difference and the counts; true if there is none.
pub fn all(a: &Path, b: &Path) -> io::Result<bool> {
    let (mut left, mut right) = (Cases::open(a)?, Cases::open(b)?);
    let (mut x, mut y) = (Vec::new(), Vec::new());
    let (mut compared, mut differences) = (0u64, 0u64);
    loop {
        left.next(&mut x)?;
        right.next(&mut y)?;
        if x.is_empty() && y.is_empty() {
            break;
        }
        compared += 1;
        if x != y {
            differences += 1;
            if differences == 1 {
                let label = match (x.is_empty(), y.is_empty()) {
                    (true, _) => "only in B: ",
                    (_, true) => "only in A: ",
                    _ => "",
                };
                show(label, &x, &y);
            }
        }
    }
    println!("{compared} cases compared, {differences} different");
    Ok(differences == 0)
}
