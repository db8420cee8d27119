//! Weak causal precedence by vector clocks (Kini, Mathur and Viswanathan, "Dynamic Race Prediction in Linear
//! Time", PLDI 2017), in the form that `wcp` has.
//!
//! Each thread has a clock of happens-before, of program order and of the strict relation. Rule (a) asks, for
//! each lock, variable and kind of access, for the two newest closed sections of different threads. Rule (b)
//! asks for the closed sections of each lock, in order; which of them are kept is left open: see `Sections`.

use crate::accesses::{Access, Accesses};
use crate::clocks::{join, widened, Pool};
use crate::names::NONE;
use crate::text::{Engine, ACQUIRE, FORK, LOAD, RELEASE, STORE};
use std::collections::VecDeque;

/// A release: its thread, its position in the thread and the clock of what happens before it.
#[derive(Clone, Copy)]
pub struct Release {
    thread: u32,
    position: u32,
    clock: u32,
}

const NO_RELEASE: Release = Release {
    thread: NONE,
    position: 0,
    clock: NONE,
};

/// A closed section: the position of its acquire, and its release.
#[derive(Clone, Copy)]
pub struct Closed {
    acquire: u32,
    release: Release,
}

/// The closed sections of a lock, in the order of their releases.
pub trait Sections: Default {
    /// Whether each section has a clock of its own. Else releases share one while it does not change.
    const OWN_CLOCKS: bool;

    /// The release of the latest section whose acquire the thread's strict clock counts, or none. Its clock
    /// is kept once for the caller.
    fn find(&mut self, thread: usize, threads: usize, strict: &[u32], pool: &mut Pool) -> Release;

    fn add(&mut self, section: Closed);
}

/// All of them are kept, and for each thread how many it found.
#[derive(Default)]
pub struct Kept {
    list: Vec<Closed>,
    found: Vec<u32>,
}

impl Sections for Kept {
    const OWN_CLOCKS: bool = true;

    #[inline(always)]
    fn find(&mut self, thread: usize, threads: usize, strict: &[u32], pool: &mut Pool) -> Release {
        if self.found.len() < threads {
            self.found.resize(threads, 0);
        }
        let mut next = self.found[thread] as usize;
        while next < self.list.len() && counts(strict, &self.list[next]) {
            next += 1;
        }
        self.found[thread] = next as u32;
        if next == 0 {
            return NO_RELEASE;
        }
        let release = self.list[next - 1].release;
        pool.keep(release.clock);
        release
    }

    fn add(&mut self, section: Closed) {
        self.list.push(section);
    }
}

/// Those that a thread has found are dropped: what a release finds comes to each later release of the lock by
/// the lock itself.
#[derive(Default)]
pub struct Dropped {
    queue: VecDeque<Closed>,
}

impl Sections for Dropped {
    const OWN_CLOCKS: bool = false;

    #[inline(always)]
    fn find(&mut self, _: usize, _: usize, strict: &[u32], pool: &mut Pool) -> Release {
        let mut latest = NO_RELEASE;
        while let Some(section) = self.queue.front().filter(|section| counts(strict, section)) {
            pool.drop(latest.clock);
            latest = section.release;
            self.queue.pop_front();
        }
        latest
    }

    fn add(&mut self, section: Closed) {
        self.queue.push_back(section);
    }
}

#[inline(always)]
fn counts(strict: &[u32], section: &Closed) -> bool {
    section.acquire <= strict[section.release.thread as usize]
}

/// Of a lock and a variable, by kind of access.
#[derive(Clone, Copy)]
struct Cell {
    newest: [[Release; 2]; 2], // the newest section with one, and the newest of another thread
    noted: [u32; 2],           // the number of the section that noted it last
}

/// An open section, with the cells that it has noted, shifted by 1, and their kinds.
struct Open {
    lock: u32,
    noted: Vec<u32>,
}

#[derive(Default)]
struct Lock<S> {
    number: u32, // of its sections, the open one included
    acquire: u32,
    release: Option<Release>, // the last one
    strict: u32,              // the strict clock there
    sections: S,
}

pub struct Precedence<S> {
    width: usize,
    threads: usize, // that were seen
    index: u32,
    positions: Vec<u32>,
    hb: Vec<u32>, // by thread, each of the width
    po: Vec<u32>,
    strict: Vec<u32>,
    hb_copies: Vec<u32>, // by thread the clock's copy, while it does not change
    strict_copies: Vec<u32>,
    open: Vec<Vec<Open>>,
    locks: Vec<Lock<S>>,
    pool: Pool,
    cells: Vec<Cell>,
    places: Vec<(u64, u32)>, // a hash table from a lock and a variable to a cell
    near: Vec<[(u32, u32); 2]>, // by variable the two locks used last, and their cells
    spare: Vec<Vec<u32>>,
    pub accesses: Accesses,
}

#[inline(always)]
fn hash(key: u64) -> usize {
    let mixed = key.wrapping_mul(0x9E37_79B9_7F4A_7C15);
    (mixed ^ (mixed >> 29)) as usize
}

const WIDTH: usize = 8;

impl<S: Sections> Precedence<S> {
    pub fn new() -> Precedence<S> {
        Precedence {
            width: WIDTH,
            threads: 0,
            index: 0,
            positions: vec![],
            hb: vec![],
            po: vec![],
            strict: vec![],
            hb_copies: vec![],
            strict_copies: vec![],
            open: vec![],
            locks: vec![],
            pool: Pool::new(WIDTH),
            cells: vec![],
            places: vec![(0, NONE); 1024],
            near: vec![],
            spare: vec![],
            accesses: Accesses::default(),
        }
    }

    #[inline(always)]
    fn see(&mut self, thread: usize) {
        if thread >= self.threads {
            self.add_threads(thread);
        }
    }

    #[cold]
    fn add_threads(&mut self, thread: usize) {
        let mut width = self.width;
        while thread >= width {
            width *= 2;
        }
        if width != self.width {
            for rows in [&mut self.hb, &mut self.po, &mut self.strict] {
                *rows = widened(rows, self.width, width);
            }
            self.pool.widen(width);
            self.width = width;
        }
        self.threads = thread + 1;
        self.positions.resize(self.threads, 0);
        for rows in [&mut self.hb, &mut self.po, &mut self.strict] {
            rows.resize(self.threads * width, 0);
        }
        self.hb_copies.resize(self.threads, NONE);
        self.strict_copies.resize(self.threads, NONE);
        self.open.resize_with(self.threads, Vec::new);
    }

    /// The cell of the lock and the variable.
    #[inline]
    fn cell(&mut self, lock: u32, x: u32) -> u32 {
        let near = &mut self.near[x as usize];
        if near[0].0 == lock {
            return near[0].1;
        }
        if near[1].0 == lock {
            near.swap(0, 1);
            return near[0].1;
        }
        let key = (lock as u64) << 32 | x as u64;
        let mask = self.places.len() - 1;
        let mut at = hash(key) & mask;
        let cell = loop {
            let (known, cell) = self.places[at];
            if cell == NONE {
                break self.add_cell(key, at);
            }
            if known == key {
                break cell;
            }
            at = (at + 1) & mask;
        };
        let near = &mut self.near[x as usize];
        near[1] = near[0];
        near[0] = (lock, cell);
        cell
    }

    fn add_cell(&mut self, key: u64, at: usize) -> u32 {
        let cell = self.cells.len() as u32;
        self.cells.push(Cell {
            newest: [[NO_RELEASE; 2]; 2],
            noted: [0; 2],
        });
        self.places[at] = (key, cell);
        if self.cells.len() * 2 > self.places.len() {
            self.grow_places();
        }
        cell
    }

    #[cold]
    fn grow_places(&mut self) {
        let size = self.places.len() * 2;
        let mut places = vec![(0, NONE); size];
        for &(key, cell) in self.places.iter().filter(|place| place.1 != NONE) {
            let mut at = hash(key) & (size - 1);
            while places[at].1 != NONE {
                at = (at + 1) & (size - 1);
            }
            places[at] = (key, cell);
        }
        self.places = places;
    }

    /// The thread's strict clock takes the release, unless it counts it already.
    #[inline]
    fn take(&mut self, thread: usize, release: Release) {
        let row = thread * self.width;
        let strict = &mut self.strict[row..row + self.width];
        if release.position > strict[release.thread as usize] {
            join(strict, self.pool.at(release.clock));
            strict[release.thread as usize] = release.position;
            self.pool.drop(self.strict_copies[thread]);
            self.strict_copies[thread] = NONE;
        }
    }

    /// Rule (a), and the verdict.
    #[inline(always)]
    fn access(&mut self, me: Access, x: u32, stores: bool) {
        let thread = me.thread as usize;
        if x as usize >= self.near.len() {
            self.near.resize(x as usize + 1, [(NONE, NONE); 2]);
        }
        let kind = stores as usize;
        for i in 0..self.open[thread].len() {
            let lock = self.open[thread][i].lock;
            let at = self.cell(lock, x);
            let number = self.locks[lock as usize].number;
            let cell = &mut self.cells[at as usize];
            if cell.noted[kind] != number {
                cell.noted[kind] = number;
                self.open[thread][i].noted.push(at << 1 | kind as u32);
            }
            let newest = cell.newest;
            let by_another =
                |kind: usize| newest[kind][(newest[kind][0].thread == me.thread) as usize];
            let store = by_another(STORE as usize);
            if store.thread != NONE {
                self.take(thread, store);
            }
            let load = if stores {
                by_another(LOAD as usize)
            } else {
                NO_RELEASE
            };
            if load.thread != NONE {
                self.take(thread, load);
            }
        }
        let row = thread * self.width;
        let strict = &self.strict[row..row + self.width];
        let po = &self.po[row..row + self.width];
        self.accesses.access(x, stores, me, |other| {
            let by = other.thread as usize;
            other.position <= strict[by] || other.position <= po[by]
        });
    }

    /// The clocks take those of the lock's last release.
    #[inline(always)]
    fn acquire(&mut self, thread: usize, lock: u32, position: u32) {
        if lock as usize >= self.locks.len() {
            self.locks.resize_with(lock as usize + 1, || Lock {
                strict: NONE,
                ..Lock::default()
            });
        }
        let row = thread * self.width;
        let of = &mut self.locks[lock as usize];
        of.number += 1;
        of.acquire = position;
        if let Some(last) = of.release {
            let by = last.thread as usize;
            if last.position > self.hb[row + by] {
                let hb = &mut self.hb[row..row + self.width];
                join(hb, self.pool.at(last.clock));
                hb[by] = last.position;
                self.pool.drop(self.hb_copies[thread]);
                self.hb_copies[thread] = NONE;
                join(
                    &mut self.strict[row..row + self.width],
                    self.pool.at(of.strict),
                );
                self.pool.drop(self.strict_copies[thread]);
                self.strict_copies[thread] = NONE;
            }
        }
        let noted = self.spare.pop().unwrap_or_default();
        self.open[thread].push(Open { lock, noted });
    }

    /// Rule (b), and the section is closed.
    #[inline(always)]
    fn release(&mut self, thread: usize, lock: u32, position: u32) {
        let at = self.open[thread]
            .iter()
            .rposition(|open| open.lock == lock)
            .unwrap();
        let mut section = self.open[thread].remove(at);
        let row = thread * self.width;
        let of = &mut self.locks[lock as usize];
        let strict = &self.strict[row..row + self.width];
        let latest = of
            .sections
            .find(thread, self.threads, strict, &mut self.pool);
        if latest.thread != NONE {
            self.take(thread, latest);
            self.pool.drop(latest.clock);
        }
        if S::OWN_CLOCKS {
            self.pool.drop(self.hb_copies[thread]);
            self.hb_copies[thread] = NONE;
        }
        if self.hb_copies[thread] == NONE {
            self.hb_copies[thread] = self.pool.make(&self.hb[row..row + self.width]);
        }
        if self.strict_copies[thread] == NONE {
            self.strict_copies[thread] = self.pool.make(&self.strict[row..row + self.width]);
        }
        let me = Release {
            thread: thread as u32,
            position,
            clock: self.hb_copies[thread],
        };
        let of = &mut self.locks[lock as usize];
        if let Some(last) = of.release {
            self.pool.drop(last.clock);
        }
        self.pool.drop(of.strict);
        self.pool.keep(me.clock);
        of.release = Some(me);
        of.strict = self.strict_copies[thread];
        self.pool.keep(of.strict);
        of.sections.add(Closed {
            acquire: of.acquire,
            release: me,
        });
        self.pool.keep(me.clock);
        for &noted in &section.noted {
            let newest = &mut self.cells[(noted >> 1) as usize].newest[(noted & 1) as usize];
            if newest[0].thread == me.thread {
                self.pool.drop(newest[0].clock);
            } else {
                self.pool.drop(newest[1].clock);
                newest[1] = newest[0];
            }
            newest[0] = me;
            self.pool.keep(me.clock);
        }
        section.noted.clear();
        self.spare.push(section.noted);
    }

    /// The child begins with the parent's clocks.
    fn fork(&mut self, thread: usize, child: usize, position: u32) {
        self.see(child);
        let width = self.width;
        self.po[thread * width + thread] = position;
        for rows in [&mut self.hb, &mut self.po, &mut self.strict] {
            rows.copy_within(thread * width..thread * width + width, child * width);
        }
    }

    /// The clocks take those of the thread that is joined.
    fn join(&mut self, thread: usize, other: usize) {
        self.see(other);
        let width = self.width;
        self.po[other * width + other] = self.positions[other];
        for rows in [&mut self.hb, &mut self.po, &mut self.strict] {
            for i in 0..width {
                rows[thread * width + i] = rows[thread * width + i].max(rows[other * width + i]);
            }
        }
        self.pool.drop(self.hb_copies[thread]);
        self.pool.drop(self.strict_copies[thread]);
        self.hb_copies[thread] = NONE;
        self.strict_copies[thread] = NONE;
    }
}

impl<S: Sections> Engine for Precedence<S> {
    #[inline]
    fn event(&mut self, thread: u32, op: u8, arg: u32, site: u32, outer: bool) {
        let by = thread as usize;
        self.see(by);
        let index = self.index;
        self.index = index.wrapping_add(1);
        self.positions[by] += 1;
        let position = self.positions[by];
        self.hb[by * self.width + by] = position;
        match op {
            LOAD | STORE => self.access(
                Access {
                    thread,
                    position,
                    index,
                    site,
                },
                arg,
                op == STORE,
            ),
            ACQUIRE if outer => self.acquire(by, arg, position),
            RELEASE if outer => self.release(by, arg, position),
            ACQUIRE | RELEASE => {}
            FORK => self.fork(by, arg as usize, position),
            _ => self.join(by, arg as usize),
        }
    }
}
