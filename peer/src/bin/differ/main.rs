//! Plays random tapes through the program `exchange` and through the peer, and compares all that they print.
//!
//!     differ PROGRAM [TAPES [FIRST-SEED]]    plays TAPES tapes, of the seeds from FIRST-SEED on
//!     differ --tape SEED                     prints the tape of a seed

mod random;
mod tapes;

use std::collections::BTreeMap;
use std::env;
use std::fmt::Write as _;
use std::io::{self, Write};
use std::process::{Command, ExitCode, Stdio};
use std::sync::atomic::{AtomicBool, AtomicU64, Ordering};
use std::thread;

use peer::tape::transcribe;
use tapes::Made;

/// How many tapes are played where none is said.
const TAPES: u64 = 10_000;

fn main() -> ExitCode {
    let arguments: Vec<String> = env::args().skip(1).collect();
    let number = |i: usize, other| arguments.get(i).map_or(Ok(other), |text| text.parse::<u64>());
    let answer = match arguments.first().map(String::as_str) {
        Some("--tape") => number(1, 0).map(|seed| io::stdout().write_all(&tapes::make(seed).tape).is_ok()),
        Some(program) => number(1, TAPES).and_then(|tapes| Ok(compare_all(program, tapes, number(2, 0)?))),
        None => Ok(false),
    };
    match answer {
        Ok(true) => ExitCode::SUCCESS,
        Ok(false) => ExitCode::FAILURE,
        Err(error) => {
            eprintln!("differ: {error}");
            ExitCode::FAILURE
        }
    }
}

/// What came up in the tapes that were played.
struct Tally {
    codes: [u32; 256],
    lines: BTreeMap<String, u64>,
}

impl Tally {
    fn new() -> Self {
        Self { codes: [0; 256], lines: BTreeMap::new() }
    }

    fn add(&mut self, made: &Made, printed: &[u8]) {
        self.add_codes(&made.codes);
        for line in String::from_utf8_lossy(printed).lines() {
            let words: Vec<&str> = line.split(' ').collect();
            let kind = match words[..] {
                ["RU", _, "M", _, mar] if mar.parse::<u8>().map_or(false, |mar| mar < 64) => {
                    "RU M register".to_string()
                }
                ["RU", _, letter @ ("R" | "M"), _, number] => format!("RU {letter} {number}"),
                ["RU", _, letter, ..] => format!("RU {letter}"),
                ["RI" | "NO", number, _] => format!("{} {number}", words[0]),
                ["EN", ..] => "EN".to_string(),
                _ => continue,
            };
            *self.lines.entry(kind).or_insert(0) += 1;
        }
    }

    fn add_codes(&mut self, codes: &[u32; 256]) {
        for (sum, more) in self.codes.iter_mut().zip(codes) {
            *sum += more;
        }
    }

    fn join(mut self, other: Self) -> Self {
        self.add_codes(&other.codes);
        for (kind, count) in other.lines {
            *self.lines.entry(kind).or_insert(0) += count;
        }
        self
    }

    fn report(&self) -> String {
        let kinds: Vec<String> = self.lines.iter().map(|(kind, count)| format!("{kind}: {count}")).collect();
        let codes = self.codes.iter().filter(|&&count| count > 0).count();
        format!("{codes} codes carried out; lines: {}", kinds.join(", "))
    }
}

/// Plays the tapes of all seeds, on all processors, and tells whether the two agreed on each.
fn compare_all(program: &str, tapes: u64, first: u64) -> bool {
    let next = AtomicU64::new(first);
    let differs = AtomicBool::new(false);
    let work = || {
        let mut tally = Tally::new();
        while !differs.load(Ordering::Relaxed) {
            let seed = next.fetch_add(1, Ordering::Relaxed);
            if seed >= first + tapes {
                break;
            }
            let made = tapes::make(seed);
            let expected = transcribe(&made.tape);
            match play(program, &made.tape) {
                Ok(printed) if printed == expected => tally.add(&made, &expected),
                printed => {
                    differs.store(true, Ordering::Relaxed);
                    println!("{}", difference(seed, &made.tape, &expected, printed));
                }
            }
        }
        tally
    };
    let jobs = thread::available_parallelism().map_or(1, Into::into);
    let tally = thread::scope(|scope| {
        let threads: Vec<_> = (0..jobs).map(|_| scope.spawn(work)).collect();
        let tallies = threads.into_iter().map(|thread| thread.join().expect("no thread panics"));
        tallies.fold(Tally::new(), Tally::join)
    });
    if differs.into_inner() {
        return false;
    }
    println!("differ: {tapes} tapes from seed {first} on, no difference; {}", tally.report());
    true
}

/// What the program prints for a tape.
fn play(program: &str, tape: &[u8]) -> io::Result<Vec<u8>> {
    let mut child = Command::new(program).stdin(Stdio::piped()).stdout(Stdio::piped()).spawn()?;
    if let Some(mut stdin) = child.stdin.take() {
        match stdin.write_all(tape) {
            // A program need not read what lies past the end of a tape.
            Err(error) if error.kind() != io::ErrorKind::BrokenPipe => return Err(error),
            _ => {}
        }
    }
    let output = child.wait_with_output()?;
    if !output.status.success() {
        return Err(io::Error::new(io::ErrorKind::Other, output.status.to_string()));
    }
    Ok(output.stdout)
}

/// A report of a tape on which the two do not agree.
fn difference(seed: u64, tape: &[u8], expected: &[u8], printed: io::Result<Vec<u8>>) -> String {
    let mut report = format!("differ: the program and the peer differ on the tape of seed {seed}, in hexadecimal:\n");
    for byte in tape {
        let _ = write!(report, "{byte:02X}");
    }
    match printed {
        Ok(printed) => {
            let (printed, expected) = (String::from_utf8_lossy(&printed), String::from_utf8_lossy(expected));
            let (mut ours, mut theirs) = (expected.lines(), printed.lines());
            let mut number = 1;
            loop {
                let (our, their) = (ours.next(), theirs.next());
                if our != their || our.is_none() {
                    let shown = |line: Option<&str>| line.unwrap_or("nothing").to_string();
                    let _ =
                        write!(report, "\nline {number}: the peer prints {}, the program {}", shown(our), shown(their));
                    break;
                }
                number += 1;
            }
        }
        Err(error) => {
            let _ = write!(report, "\nthe program failed: {error}");
        }
    }
    report
}
