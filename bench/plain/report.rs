//! The report and the exit status, as in `wcp`.

use crate::accesses::{Access, Race};
use crate::text::{All, Fault};
use std::io::Write;

fn put(bytes: &[u8]) -> bool {
    let mut out = std::io::stdout().lock();
    out.write_all(bytes).is_ok() && out.flush().is_ok()
}

// Writes the last of it; the status, where that was written.
fn end(bytes: &[u8], status: i32) -> i32 {
    if put(bytes) {
        return status;
    }
    eprintln!("write fault");
    4
}

fn end_fault(fault: Fault) -> i32 {
    match fault {
        Fault::Line(line, word) => end(format!("line {line}: {word}\n").as_bytes(), 3),
        Fault::Read => {
            eprintln!("read fault");
            4
        }
    }
}

fn counts(all: &All) -> String {
    let (threads, locks, vars) = (all.threads.count(), all.locks.count(), all.vars.count());
    format!(
        "events {} threads {threads} locks {locks} variables {vars}",
        all.events
    )
}

fn put_number(page: &mut Vec<u8>, mut number: u64) {
    let mut digits = [0u8; 20];
    let mut at = 20;
    loop {
        at -= 1;
        digits[at] = b'0' + (number % 10) as u8;
        number /= 10;
        if number == 0 {
            break;
        }
    }
    page.extend_from_slice(&digits[at..]);
}

fn put_access(page: &mut Vec<u8>, all: &All, access: &Access, stores: bool, var: u32) {
    put_number(page, access.index as u64 + 1);
    page.push(b'|');
    page.extend_from_slice(all.threads.name(access.thread));
    page.extend_from_slice(if stores { b"|w(" } else { b"|r(" });
    page.extend_from_slice(all.vars.name(var));
    page.extend_from_slice(b")|");
    page.extend_from_slice(all.sites.name(access.site));
}

fn end_report(all: &All, races: &[Race]) -> i32 {
    let mut page = format!("{} races {}\n", counts(all), races.len()).into_bytes();
    for race in races {
        put_access(&mut page, all, &race.later, race.later_stores, race.var);
        page.extend_from_slice(b" with ");
        put_access(&mut page, all, &race.earlier, race.earlier_stores, race.var);
        page.push(b'\n');
        if page.len() > 1 << 16 {
            if !put(&page) {
                eprintln!("write fault");
                return 4;
            }
            page.clear();
        }
    }
    end(&page, !races.is_empty() as i32)
}

/// Tells the counts, as `wcp check` does.
pub fn end_check(read: Result<All, Fault>) -> i32 {
    match read {
        Ok(all) => end((counts(&all) + "\n").as_bytes(), 0),
        Err(fault) => end_fault(fault),
    }
}

/// Tells the races, as `wcp replay` does.
pub fn end_replay(read: Result<All, Fault>, races: &[Race]) -> i32 {
    match read {
        Ok(all) => end_report(&all, races),
        Err(fault) => end_fault(fault),
    }
}
