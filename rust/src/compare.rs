//! Holds the listings of another program against the model's.

use std::fmt;
use std::io::{self, Read, Write};
use std::ops::Range;
use std::path::PathBuf;
use std::process::{Child, Command, Stdio};
use std::sync::atomic::{AtomicBool, AtomicU64, Ordering};
use std::sync::{Mutex, mpsc};
use std::thread;
use std::time::Duration;

use crate::generate;
use crate::judge;
use crate::listing::Mode;

/// How many files are worked on at once.
const THREADS: usize = 2;
/// How long a program may take for a file.
const LIMIT: Duration = Duration::from_secs(20);

/// A program under test: it reads a file from its input and prints a listing.
#[derive(Clone, Debug)]
pub struct Program {
    pub path: PathBuf,
    pub arguments: Vec<String>,
    pub mode: Mode,
    pub files: Files,
}

/// Which files a program is given.
#[derive(Clone, Copy, Debug, PartialEq, Eq)]
pub enum Files {
    /// Files of requests, some of them damaged.
    Requests,
    /// Random bytes.
    Bytes,
}

impl Files {
    /// The files of a name.
    pub fn from_name(name: &str) -> Option<Files> {
        match name {
            "requests" => Some(Files::Requests),
            "bytes" => Some(Files::Bytes),
            _ => None,
        }
    }

    fn file(self, seed: u64) -> Vec<u8> {
        match self {
            Files::Requests => generate::file(seed),
            Files::Bytes => generate::bytes(seed),
        }
    }
}

/// What a program gave for a file.
#[derive(Clone, Debug)]
struct Output {
    listing: Vec<u8>,
    complaint: Vec<u8>,
    status: String,
    good_status: bool,
}

/// A file for which the program and the model, or the judge, do not agree.
#[derive(Clone, Debug)]
pub struct Difference {
    pub seed: u64,
    model: String,
    program: Output,
    judged: Option<String>,
}

impl fmt::Display for Difference {
    fn fmt(&self, out: &mut fmt::Formatter<'_>) -> fmt::Result {
        let Difference {
            seed,
            model,
            program,
            judged,
        } = self;
        writeln!(out, "seed {seed}")?;
        writeln!(out, "--- the model's listing")?;
        write!(out, "{model}")?;
        writeln!(out, "--- the program's listing ({})", program.status)?;
        write!(out, "{}", String::from_utf8_lossy(&program.listing))?;
        if !program.complaint.is_empty() {
            writeln!(out, "--- the program's complaint")?;
            write!(out, "{}", String::from_utf8_lossy(&program.complaint))?;
        }
        if let Some(line) = first_other_line(model.as_bytes(), &program.listing) {
            writeln!(out, "--- the listings part at line {line}")?;
        }
        match judged {
            Some(words) => writeln!(out, "--- the judge: {words}"),
            None => Ok(()),
        }
    }
}

fn first_other_line(one: &[u8], other: &[u8]) -> Option<usize> {
    let place = one.iter().zip(other).position(|(a, b)| a != b);
    let place = place.or_else(|| (one.len() != other.len()).then(|| one.len().min(other.len())))?;
    Some(1 + one[..place].iter().filter(|&&byte| byte == b'\n').count())
}

/// Gives the files of all seeds to the program. The difference that comes
/// back is the one with the lowest seed of those that were found.
pub fn compare(program: &Program, seeds: Range<u64>) -> io::Result<Option<Difference>> {
    let next = AtomicU64::new(seeds.start);
    let stop = AtomicBool::new(false);
    let found = Mutex::new(Ok(None));
    thread::scope(|scope| {
        for _ in 0..THREADS {
            scope.spawn(|| work(program, seeds.end, &next, &stop, &found));
        }
    });
    found.into_inner().expect("no thread fails")
}

type Found = io::Result<Option<Difference>>;

fn work(program: &Program, end: u64, next: &AtomicU64, stop: &AtomicBool, found: &Mutex<Found>) {
    while !stop.load(Ordering::Relaxed) {
        let seed = next.fetch_add(1, Ordering::Relaxed);
        if seed >= end {
            return;
        }
        let this = compare_one(program, seed);
        if !matches!(this, Ok(None)) {
            stop.store(true, Ordering::Relaxed);
            keep(&mut found.lock().expect("no thread fails"), this);
        }
    }
}

/// Keeps the worse of two: a failure to run, then the lower seed.
fn keep(found: &mut Found, this: Found) {
    let replace = match (&*found, &this) {
        (Err(_), _) => false,
        (Ok(None), _) | (_, Err(_)) => true,
        (Ok(Some(old)), Ok(Some(new))) => new.seed < old.seed,
        (_, Ok(None)) => false,
    };
    if replace {
        *found = this;
    }
}

/// Compares for one seed.
pub fn compare_one(program: &Program, seed: u64) -> io::Result<Option<Difference>> {
    let file = program.files.file(seed);
    let model = program.mode.listing(&file);
    let output = run(program, &file)?;
    let judged = match program.mode {
        Mode::Day => judge::judge_day(&file, &output.listing)
            .err()
            .map(|fault| fault.to_string()),
        Mode::Books | Mode::Settle => None,
    };
    let same = output.listing == model.as_bytes() && output.good_status;
    if same && judged.is_none() {
        return Ok(None);
    }
    Ok(Some(Difference {
        seed,
        model,
        program: output,
        judged,
    }))
}

/// Runs the program with the file on its input. A program that does not end
/// in time is stopped.
fn run(program: &Program, file: &[u8]) -> io::Result<Output> {
    let mut child = Command::new(&program.path)
        .args(&program.arguments)
        .stdin(Stdio::piped())
        .stdout(Stdio::piped())
        .stderr(Stdio::piped())
        .spawn()?;
    let mut input = child.stdin.take().expect("the input is a pipe");
    let listing = child.stdout.take().expect("the output is a pipe");
    let complaint = child.stderr.take().expect("the complaint is a pipe");
    let (finished, watched) = mpsc::channel::<()>();
    thread::scope(|scope| {
        // A program may end before it has read everything.
        scope.spawn(move || input.write_all(file).ok());
        let complaint = scope.spawn(|| read_all(complaint));
        let child = scope.spawn(move || stop_in_time(child, &watched));
        let listing = read_all(listing);
        drop(finished);
        let (mut child, stopped) = child.join().expect("no thread fails")?;
        let status = child.wait()?;
        Ok(Output {
            listing: listing?,
            complaint: complaint.join().expect("no thread fails")?,
            status: if stopped {
                format!("stopped after {} seconds", LIMIT.as_secs())
            } else {
                status.to_string()
            },
            good_status: status.success() && !stopped,
        })
    })
}

fn read_all(mut from: impl Read) -> io::Result<Vec<u8>> {
    let mut bytes = Vec::new();
    from.read_to_end(&mut bytes)?;
    Ok(bytes)
}

/// Waits until the output has ended, and stops the child if that takes too
/// long. Says whether it was stopped.
fn stop_in_time(mut child: Child, watched: &mpsc::Receiver<()>) -> io::Result<(Child, bool)> {
    let late = watched.recv_timeout(LIMIT) == Err(mpsc::RecvTimeoutError::Timeout);
    if late {
        child.kill()?;
    }
    Ok((child, late))
}

#[cfg(test)]
mod tests {
    use super::*;

    #[test]
    fn listings_part_at_a_line() {
        assert_eq!(first_other_line(b"a\nb\n", b"a\nb\n"), None);
        assert_eq!(first_other_line(b"a\nb\n", b"a\nc\n"), Some(2));
        assert_eq!(first_other_line(b"a\nb\n", b"a\n"), Some(2));
        assert_eq!(first_other_line(b"", b"a\n"), Some(1));
    }

    #[test]
    fn a_program_that_prints_nothing_differs() {
        let program = Program {
            path: "true".into(),
            arguments: Vec::new(),
            mode: Mode::Day,
            files: Files::Requests,
        };
        let found = compare(&program, 0..3).unwrap().unwrap();
        assert!(found.to_string().contains("the listing ends too soon"));
    }
}
