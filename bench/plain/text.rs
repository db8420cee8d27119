//! The lines of a trace: found 32 bytes at a time, parsed, numbered and tested for legality, with the causes
//! and their order as in `wcp`. What the events mean is the engine's to say.

use crate::names::{Names, NONE};
use std::arch::x86_64::*;
use std::io::{ErrorKind, Read};

pub const LOAD: u8 = 0;
pub const STORE: u8 = 1;
pub const ACQUIRE: u8 = 2;
pub const RELEASE: u8 = 3;
pub const FORK: u8 = 4;
pub const JOIN: u8 = 5;

/// What is done at each event of a legal trace.
pub trait Engine {
    /// `outer` says of an acquire or a release whether its thread holds the lock without it.
    fn event(&mut self, thread: u32, op: u8, arg: u32, site: u32, outer: bool);
}

/// An engine that does nothing.
pub struct Nothing;

impl Engine for Nothing {
    #[inline(always)]
    fn event(&mut self, _: u32, _: u8, _: u32, _: u32, _: bool) {}
}

/// What a trace names, and how many events it has.
pub struct All {
    pub threads: Names,
    pub locks: Names,
    pub vars: Names,
    pub sites: Names,
    pub events: u64,
}

pub enum Fault {
    Line(u64, &'static str),
    Read,
}

/// Where a line ends, and what was found in it: how many bars, where the first two stand, and where the first
/// CR.
struct Marks {
    end: usize,
    bars: u32,
    first: usize,
    second: usize,
    cr: usize,
}

/// The line that begins at `start`, where it and its two bars stand in 32 bytes.
///
/// Condition: 32 bytes may be read there.
#[inline(always)]
fn near_marks(bytes: &[u8], start: usize) -> Option<Marks> {
    unsafe {
        let at = bytes.as_ptr().add(start);
        let low = _mm_loadu_si128(at as *const __m128i);
        let high = _mm_loadu_si128(at.add(16) as *const __m128i);
        let equal = |byte: u8| {
            let all = _mm_set1_epi8(byte as i8);
            _mm_movemask_epi8(_mm_cmpeq_epi8(low, all)) as u32
                | (_mm_movemask_epi8(_mm_cmpeq_epi8(high, all)) as u32) << 16
        };
        let lf = equal(b'\n');
        let before = lf.wrapping_sub(1) & !lf;
        let bars = equal(b'|') & before;
        let cr = equal(b'\r') & before;
        let rest = bars & bars.wrapping_sub(1);
        if lf == 0 || rest == 0 || rest & (rest - 1) != 0 {
            return None;
        }
        Some(Marks {
            end: start + lf.trailing_zeros() as usize,
            bars: 2,
            first: start + bars.trailing_zeros() as usize,
            second: start + rest.trailing_zeros() as usize,
            cr: if cr == 0 {
                usize::MAX
            } else {
                start + cr.trailing_zeros() as usize
            },
        })
    }
}

/// The line that begins at `start`, where it ends before `end`.
///
/// Condition: 16 bytes may be read up to there.
#[inline(always)]
fn far_marks(bytes: &[u8], start: usize, end: usize) -> Option<Marks> {
    let mut marks = Marks {
        end: usize::MAX,
        bars: 0,
        first: 0,
        second: 0,
        cr: usize::MAX,
    };
    let mut at = start;
    while at < end {
        let here = unsafe { _mm_loadu_si128(bytes.as_ptr().add(at) as *const __m128i) };
        let within = if end - at < 16 {
            (1u32 << (end - at)) - 1
        } else {
            u32::MAX
        };
        let equal = |byte: u8| unsafe {
            _mm_movemask_epi8(_mm_cmpeq_epi8(here, _mm_set1_epi8(byte as i8))) as u32 & within
        };
        let lf = equal(b'\n');
        let before = lf.wrapping_sub(1) & !lf;
        let mut bars = equal(b'|') & before;
        let cr = equal(b'\r') & before;
        while bars != 0 {
            let place = at + bars.trailing_zeros() as usize;
            marks.bars += 1;
            match marks.bars {
                1 => marks.first = place,
                2 => marks.second = place,
                _ => {}
            }
            bars &= bars - 1;
        }
        if cr != 0 && marks.cr == usize::MAX {
            marks.cr = at + cr.trailing_zeros() as usize;
        }
        if lf != 0 {
            marks.end = at + lf.trailing_zeros() as usize;
            return Some(marks);
        }
        at += 16;
    }
    None
}

// The six words as numbers, each at a place that its own bytes give.
const fn packed(word: &[u8]) -> u64 {
    let mut number = 0;
    let mut i = 0;
    while i < word.len() {
        number |= (word[i] as u64) << (8 * i);
        i += 1;
    }
    number
}

const fn place(word: u64) -> usize {
    ((word.wrapping_mul(7) >> 5) & 15) as usize
}

const WORDS: [&[u8]; 6] = [b"r", b"w", b"acq", b"rel", b"fork", b"join"];

/// Of each place the word there, its length and the number of its operation; no word has the length 9.
static PLACES: [(u64, u8, u8); 16] = {
    let mut places = [(0, 9, 0); 16];
    let mut op = 0;
    while op < 6 {
        let word = packed(WORDS[op]);
        assert!(places[place(word)].1 == 9);
        places[place(word)] = (word, WORDS[op].len() as u8, op as u8);
        op += 1;
    }
    places
};

/// The operation of `word(argument)`, and how many bytes its word has.
///
/// Condition: 8 bytes may be read at the start of the field.
#[inline(always)]
fn operation(field: &[u8]) -> Option<(u8, usize)> {
    if field.last() != Some(&b')') {
        return None;
    }
    let bytes = unsafe { (field.as_ptr() as *const u64).read_unaligned() };
    // the first '(' among the eight bytes
    let zeroed = bytes ^ 0x2828_2828_2828_2828;
    let found = zeroed.wrapping_sub(0x0101_0101_0101_0101) & !zeroed & 0x8080_8080_8080_8080;
    let open = (found.trailing_zeros() / 8) as usize;
    if open >= 5 || open >= field.len() {
        return None;
    }
    let word = bytes & ((1u64 << (8 * open)) - 1);
    let (known, len, op) = PLACES[place(word)];
    (known == word && len as usize == open).then_some((op, open))
}

/// Who holds the locks, and which threads have run and ended.
struct Threads {
    holds: Vec<(u32, u32)>, // by lock: the holder and the depth
    seen: Vec<bool>,
    ended: Vec<bool>,
}

impl Threads {
    /// Takes the event, and answers whether it is an outer acquire or release.
    #[inline(always)]
    fn take(&mut self, thread: u32, op: u8, arg: u32) -> Result<bool, &'static str> {
        let mut outer = true;
        let lock = arg as usize;
        if self.ended[thread as usize] {
            return Err("Ended");
        }
        match op {
            ACQUIRE => {
                if lock >= self.holds.len() {
                    self.holds.resize(lock + 1, (NONE, 0));
                }
                let (holder, depth) = &mut self.holds[lock];
                if *depth > 0 && *holder != thread {
                    return Err("Held");
                }
                *holder = thread;
                *depth += 1;
                outer = *depth == 1;
            }
            RELEASE => {
                if lock >= self.holds.len() {
                    return Err("NotHolder");
                }
                let (holder, depth) = &mut self.holds[lock];
                if *depth == 0 || *holder != thread {
                    return Err("NotHolder");
                }
                *depth -= 1;
                outer = *depth == 0;
            }
            FORK | JOIN => {
                if arg == thread {
                    return Err("SelfTarget");
                }
                if op == FORK && self.seen[arg as usize] {
                    return Err("AlreadyStarted");
                }
                self.seen[arg as usize] = true;
                self.ended[arg as usize] |= op == JOIN;
            }
            _ => {}
        }
        self.seen[thread as usize] = true;
        Ok(outer)
    }
}

/// Takes the line from `start` on: nothing where it is empty.
#[inline(always)]
fn take_line<E: Engine>(
    engine: &mut E,
    all: &mut All,
    threads: &mut Threads,
    bytes: &[u8],
    start: usize,
    marks: &Marks,
) -> Result<(), &'static str> {
    let mut end = marks.end;
    if end > start && bytes[end - 1] == b'\r' {
        end -= 1;
    }
    if end == start {
        return Ok(());
    }
    if end - start > 1024 {
        return Err("LineTooLong");
    }
    if marks.cr < end {
        return Err("StrayCr");
    }
    if marks.bars < 2 {
        return Err("FewFields");
    }
    if marks.bars > 2 {
        return Err("ManyFields");
    }
    let thread = &bytes[start..marks.first];
    let call = &bytes[marks.first + 1..marks.second];
    let site = &bytes[marks.second + 1..end];
    let Some((op, open)) = operation(call) else {
        return Err("BadOp");
    };
    let arg = &call[open + 1..call.len() - 1];
    if thread.is_empty() || arg.is_empty() {
        return Err("EmptyName");
    }
    if thread.len() > 255 || arg.len() > 255 || site.len() > 255 {
        return Err("LongName");
    }
    let thread = all.threads.number(thread);
    if thread == NONE {
        return Err("TooManyNames");
    }
    let arg = match op {
        LOAD | STORE => all.vars.number(arg),
        ACQUIRE | RELEASE => all.locks.number(arg),
        _ => all.threads.number(arg),
    };
    if arg == NONE {
        return Err("TooManyNames");
    }
    let site = all.sites.number(site);
    if site == NONE {
        return Err("TooManyNames");
    }
    let outer = threads.take(thread, op, arg)?;
    all.events += 1;
    engine.event(thread, op, arg, site, outer);
    Ok(())
}

const PIECE: usize = 1 << 18;
/// What may be read behind a piece.
const MARGIN: usize = 64;

/// Gives the engine the events of standard input, one after another, up to the first line that has a fault.
pub fn drive<E: Engine>(engine: &mut E, limit: u32) -> Result<All, Fault> {
    let mut all = All {
        threads: Names::new(limit as u64),
        locks: Names::new(1 << 20),
        vars: Names::new(1 << 20),
        sites: Names::new(4_294_967_295),
        events: 0,
    };
    let mut threads = Threads {
        holds: Vec::new(),
        seen: vec![false; limit as usize],
        ended: vec![false; limit as usize],
    };
    let mut input = std::io::stdin().lock();
    let mut bytes = vec![0u8; PIECE + MARGIN];
    let (mut start, mut end) = (0, 0);
    let mut line = 0;
    let mut at_end = false;
    while !at_end {
        if start > 0 {
            bytes.copy_within(start..end, 0);
            end -= start;
            start = 0;
        }
        let mut failed = false;
        match input.read(&mut bytes[end..PIECE]) {
            Ok(0) => {
                at_end = true;
                bytes[end] = b'\n';
                end += 1;
            }
            Ok(n) => end += n,
            Err(error) if error.kind() == ErrorKind::Interrupted => continue,
            Err(_) => failed = true,
        }
        loop {
            let near = if end - start >= 32 {
                near_marks(&bytes, start)
            } else {
                None
            };
            let marks = match near {
                Some(marks) => marks,
                None => match far_marks(&bytes, start, end) {
                    Some(marks) => marks,
                    None => break,
                },
            };
            line += 1;
            if let Err(word) = take_line(engine, &mut all, &mut threads, &bytes, start, &marks) {
                return Err(Fault::Line(line, word));
            }
            start = marks.end + 1;
        }
        if end - start >= 1026 {
            return Err(Fault::Line(line + 1, "LineTooLong"));
        }
        if failed {
            return Err(Fault::Read);
        }
    }
    Ok(all)
}
