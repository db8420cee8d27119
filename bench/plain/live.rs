//! Threads that call one plain monitor: the engine, the cells and the holders under one lock, and the length
//! of the log beside it.
use crate::precedence::{Kept, Precedence};
use crate::text::{Engine, ACQUIRE, FORK, LOAD, RELEASE, STORE};
use std::sync::atomic::{AtomicU64, Ordering};
use std::sync::Mutex;
use std::time::Instant;

const LOCKS: u32 = 16;
const VARS: u32 = 1024;

struct Book {
    engine: Precedence<Kept>,
    cells: Vec<u64>,
    holders: Vec<(u32, u32)>, // the thread, and how often it holds the lock
}

struct Shared {
    book: Mutex<Book>,
    published: AtomicU64,
}

impl Shared {
    fn new() -> Shared {
        Shared {
            book: Mutex::new(Book {
                engine: Precedence::new(),
                cells: vec![0; VARS as usize],
                holders: vec![(0, 0); LOCKS as usize],
            }),
            published: AtomicU64::new(0),
        }
    }

    /// Makes the call, and answers the value; None where another thread holds the lock.
    fn call(&self, thread: u32, op: u8, arg: u32, value: u64) -> Option<u64> {
        let book = &mut *self.book.lock().unwrap();
        let mut outer = true;
        let mut answer = 0;
        match op {
            LOAD => answer = book.cells[arg as usize],
            STORE => {
                book.cells[arg as usize] = value;
                answer = value;
            }
            ACQUIRE => {
                let holder = &mut book.holders[arg as usize];
                if holder.1 > 0 && holder.0 != thread {
                    return None;
                }
                outer = holder.1 == 0;
                *holder = (thread, holder.1 + 1);
            }
            RELEASE => {
                let holder = &mut book.holders[arg as usize];
                holder.1 -= 1;
                outer = holder.1 == 0;
            }
            _ => {}
        }
        book.engine.event(thread, op, arg, 0, outer);
        self.published.fetch_add(1, Ordering::SeqCst);
        Some(answer)
    }

    /// Acquires the lock, loads and stores a variable, and releases the lock. It answers how often the
    /// acquire was refused.
    fn section(&self, thread: u32, lock: u32, var: u32) -> u64 {
        let mut refused = 0;
        while self.call(thread, ACQUIRE, lock, 0).is_none() {
            refused += 1;
            std::thread::yield_now();
        }
        let value = self.call(thread, LOAD, var, 0).unwrap();
        self.call(thread, STORE, var, value.wrapping_add(1)).unwrap();
        self.call(thread, RELEASE, lock, 0).unwrap();
        refused
    }

    /// The calls of a thread. It answers how many acquires were refused.
    fn calls(&self, workload: &str, thread: u32, calls: u64) -> u64 {
        let mut random = 0x9E37_79B9_7F4A_7C15u64.wrapping_mul(u64::from(thread) + 1);
        let mut refused = 0;
        let mut made = 0;
        while made < calls {
            random ^= random << 13;
            random ^= random >> 7;
            random ^= random << 17;
            let number = (random % 65536) as u32;
            made += match workload {
                "private" => {
                    let op = if number & 64 == 0 { LOAD } else { STORE };
                    self.call(thread, op, 64 * thread + number % 64, random).unwrap();
                    1
                }
                "reads" => {
                    self.call(thread, LOAD, number % 64, 0).unwrap();
                    1
                }
                _ => {
                    let lock = if workload == "hot" { 0 } else { number % LOCKS };
                    refused += self.section(thread, lock, 64 * lock + number / 256 % 64);
                    4
                }
            };
        }
        refused
    }
}

/// Runs the workload, and prints the accepted calls, the refused acquires, the races and the nanoseconds that
/// passed.
pub fn run(workload: &str, threads: u32, calls: u64) {
    let shared = Shared::new();
    for child in 1..threads {
        shared.call(0, FORK, child, 0);
    }
    let begun = Instant::now();
    let refused: u64 = std::thread::scope(|scope| {
        let spawn = |thread| {
            let shared = &shared;
            scope.spawn(move || shared.calls(workload, thread, calls))
        };
        let workers: Vec<_> = (0..threads).map(spawn).collect();
        workers.into_iter().map(|worker| worker.join().unwrap()).sum()
    });
    let passed = begun.elapsed().as_nanos();
    let accepted = shared.published.load(Ordering::SeqCst);
    let races = shared.book.lock().unwrap().engine.accesses.races.len();
    println!("{accepted} {refused} {races} {passed}");
}
