//! A monitor in plain Rust without proofs, to compare `wcp` with:
//!
//! ```text
//! plain check|hb|keep|drop [--threads N] < TRACE
//! plain live private|locked|hot|reads THREADS CALLS
//! ```
//!
//! | Word | What it does |
//! |---|---|
//! | `check` | what `wcp check` does: the lines, the names, and whether the trace is legal |
//! | `hb` | tells the races of happens-before: the work of a monitor of a simpler relation |
//! | `keep` | what `wcp replay` does; each lock keeps all its closed sections, as in `wcp` |
//! | `drop` | the same; each lock drops the closed sections that no thread needs any more |
//! | `live` | threads that call one monitor, each so often: what the program of `bench/live` does |
//!
//! It has no log, and does not look whether memory was refused. The report and the exit status are those of
//! `wcp`, so that the reports can be compared; `hb` tells no more races than the others.
mod accesses;
mod clocks;
mod happens_before;
mod live;
mod names;
mod precedence;
mod report;
mod text;

use happens_before::HappensBefore;
use precedence::{Dropped, Kept, Precedence};
use report::{end_check, end_replay};
use text::{drive, Nothing};

fn run(word: &str, threads: u32) -> Option<i32> {
    Some(match word {
        "check" => end_check(drive(&mut Nothing, threads)),
        "hb" => {
            let mut engine = HappensBefore::new();
            let read = drive(&mut engine, threads);
            end_replay(read, &engine.accesses.races)
        }
        "keep" => {
            let mut engine = Precedence::<Kept>::new();
            let read = drive(&mut engine, threads);
            end_replay(read, &engine.accesses.races)
        }
        "drop" => {
            let mut engine = Precedence::<Dropped>::new();
            let read = drive(&mut engine, threads);
            end_replay(read, &engine.accesses.races)
        }
        _ => return None,
    })
}

/// Runs live calls, if the words are such.
fn run_live(words: &[&str]) -> Option<i32> {
    let &["live", workload @ ("private" | "locked" | "hot" | "reads"), threads, calls] = words else {
        return None;
    };
    let threads = threads.parse().ok().filter(|threads| (1..=16).contains(threads))?;
    live::run(workload, threads, calls.parse().ok()?);
    Some(0)
}

fn main() {
    let words: Vec<String> = std::env::args().skip(1).collect();
    let words: Vec<&str> = words.iter().map(String::as_str).collect();
    let status = match words[..] {
        [word] => run(word, 64),
        [word, "--threads", number] => match number.parse() {
            Ok(threads) if (1..=1024).contains(&threads) => run(word, threads),
            _ => None,
        },
        _ => run_live(&words),
    };
    std::process::exit(status.unwrap_or_else(|| {
        eprintln!("usage: plain check|hb|keep|drop [--threads N] < TRACE");
        eprintln!("       plain live private|locked|hot|reads THREADS CALLS");
        2
    }))
}
