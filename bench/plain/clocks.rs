//! Vector clocks of 32 bits a number. All have one width, which is doubled as threads appear. Copies are
//! counted, and used again once nobody keeps them.

use crate::names::NONE;

/// Copies of clocks, each with a number.
pub struct Pool {
    width: usize,
    rows: Vec<u32>,
    uses: Vec<u32>,
    free: Vec<u32>,
}

impl Pool {
    pub fn new(width: usize) -> Pool {
        Pool {
            width,
            rows: Vec::new(),
            uses: Vec::new(),
            free: Vec::new(),
        }
    }

    /// A copy of the clock, kept once.
    #[inline]
    pub fn make(&mut self, clock: &[u32]) -> u32 {
        let number = match self.free.pop() {
            Some(number) => number,
            None => {
                self.uses.push(0);
                self.rows.resize(self.rows.len() + self.width, 0);
                self.uses.len() as u32 - 1
            }
        };
        self.uses[number as usize] = 1;
        let start = number as usize * self.width;
        self.rows[start..start + self.width].copy_from_slice(clock);
        number
    }

    #[inline]
    pub fn at(&self, number: u32) -> &[u32] {
        let start = number as usize * self.width;
        &self.rows[start..start + self.width]
    }

    #[inline(always)]
    pub fn keep(&mut self, number: u32) {
        self.uses[number as usize] += 1;
    }

    #[inline(always)]
    pub fn drop(&mut self, number: u32) {
        if number == NONE {
            return;
        }
        let uses = &mut self.uses[number as usize];
        *uses -= 1;
        if *uses == 0 {
            self.free.push(number);
        }
    }

    pub fn widen(&mut self, width: usize) {
        self.rows = widened(&self.rows, self.width, width);
        self.width = width;
    }
}

/// The rows of one width with zeros up to a greater one.
pub fn widened(rows: &[u32], width: usize, to: usize) -> Vec<u32> {
    let mut wide = vec![0; rows.len() / width * to];
    for (row, old) in wide.chunks_exact_mut(to).zip(rows.chunks_exact(width)) {
        row[..width].copy_from_slice(old);
    }
    wide
}

/// Of each thread the greater number.
#[inline(always)]
pub fn join(clock: &mut [u32], other: &[u32]) {
    for (mine, its) in clock.iter_mut().zip(other) {
        *mine = (*mine).max(*its);
    }
}
