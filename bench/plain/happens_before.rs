//! Happens-before alone: how fast a monitor of a simpler relation is, which keeps no sections. Its races are
//! a part of those that `wcp` tells.

use crate::accesses::{Access, Accesses};
use crate::clocks::{join, widened, Pool};
use crate::names::NONE;
use crate::text::{Engine, ACQUIRE, FORK, LOAD, RELEASE, STORE};

#[derive(Clone, Copy)]
struct Release {
    thread: u32,
    position: u32,
    clock: u32,
}

const WIDTH: usize = 8;

pub struct HappensBefore {
    width: usize,
    threads: usize, // that were seen
    index: u32,
    positions: Vec<u32>,
    clocks: Vec<u32>, // by thread, each of the width
    copies: Vec<u32>, // by thread the clock's copy, while it does not change
    locks: Vec<Option<Release>>,
    pool: Pool,
    pub accesses: Accesses,
}

impl HappensBefore {
    pub fn new() -> HappensBefore {
        HappensBefore {
            width: WIDTH,
            threads: 0,
            index: 0,
            positions: vec![],
            clocks: vec![],
            copies: vec![],
            locks: vec![],
            pool: Pool::new(WIDTH),
            accesses: Accesses::default(),
        }
    }

    #[inline(always)]
    fn see(&mut self, thread: usize) {
        if thread >= self.threads {
            self.add_threads(thread);
        }
    }

    #[cold]
    fn add_threads(&mut self, thread: usize) {
        let mut width = self.width;
        while thread >= width {
            width *= 2;
        }
        if width != self.width {
            self.clocks = widened(&self.clocks, self.width, width);
            self.pool.widen(width);
            self.width = width;
        }
        self.threads = thread + 1;
        self.positions.resize(self.threads, 0);
        self.clocks.resize(self.threads * width, 0);
        self.copies.resize(self.threads, NONE);
    }

    fn acquire(&mut self, thread: usize, lock: usize) {
        if lock >= self.locks.len() {
            self.locks.resize(lock + 1, None);
        }
        let Some(last) = self.locks[lock] else { return };
        let row = thread * self.width;
        let clock = &mut self.clocks[row..row + self.width];
        if last.position > clock[last.thread as usize] {
            join(clock, self.pool.at(last.clock));
            clock[last.thread as usize] = last.position;
            self.pool.drop(self.copies[thread]);
            self.copies[thread] = NONE;
        }
    }

    fn release(&mut self, thread: usize, lock: usize, position: u32) {
        let row = thread * self.width;
        if self.copies[thread] == NONE {
            self.copies[thread] = self.pool.make(&self.clocks[row..row + self.width]);
        }
        let clock = self.copies[thread];
        self.pool.keep(clock);
        if let Some(last) = self.locks[lock] {
            self.pool.drop(last.clock);
        }
        self.locks[lock] = Some(Release {
            thread: thread as u32,
            position,
            clock,
        });
    }

    /// The one thread's clock takes the other's.
    fn hand_on(&mut self, to: usize, from: usize) {
        let width = self.width;
        for i in 0..width {
            self.clocks[to * width + i] =
                self.clocks[to * width + i].max(self.clocks[from * width + i]);
        }
        self.pool.drop(self.copies[to]);
        self.copies[to] = NONE;
    }
}

impl Engine for HappensBefore {
    #[inline]
    fn event(&mut self, thread: u32, op: u8, arg: u32, site: u32, outer: bool) {
        let by = thread as usize;
        self.see(by);
        let index = self.index;
        self.index = index.wrapping_add(1);
        self.positions[by] += 1;
        let position = self.positions[by];
        let row = by * self.width;
        self.clocks[row + by] = position;
        match op {
            LOAD | STORE => {
                let clock = &self.clocks[row..row + self.width];
                let me = Access {
                    thread,
                    position,
                    index,
                    site,
                };
                self.accesses.access(arg, op == STORE, me, |other| {
                    other.position <= clock[other.thread as usize]
                });
            }
            ACQUIRE if outer => self.acquire(by, arg as usize),
            RELEASE if outer => self.release(by, arg as usize, position),
            ACQUIRE | RELEASE => {}
            _ => {
                self.see(arg as usize);
                let (to, from) = if op == FORK {
                    (arg as usize, by)
                } else {
                    (by, arg as usize)
                };
                self.hand_on(to, from);
            }
        }
    }
}
