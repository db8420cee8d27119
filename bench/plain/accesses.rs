//! The last accesses of each variable, and the races: of an access the latest earlier one that conflicts
//! with it and is not below it.
//!
//! Most variables need their last store and their last load alone. Earlier accesses by other threads are kept
//! beside, until a store that races with nothing takes the place of all.

use crate::names::NONE;

#[derive(Clone, Copy)]
pub struct Access {
    pub thread: u32,
    pub position: u32,
    pub index: u32,
    pub site: u32,
}

const NO_ACCESS: Access = Access {
    thread: NONE,
    position: 0,
    index: 0,
    site: 0,
};

struct Variable {
    store: Access,            // the last one, if any
    load: Access,             // the last one since a store that raced with nothing
    more_stores: Vec<Access>, // of other threads than the last store's
    more_loads: Vec<Access>,
}

/// That an access races with an earlier one.
pub struct Race {
    pub later: Access,
    pub earlier: Access,
    pub var: u32,
    pub later_stores: bool,
    pub earlier_stores: bool,
}

#[derive(Default)]
pub struct Accesses {
    vars: Vec<Variable>,
    pub races: Vec<Race>,
}

// In the list, the access takes the place of its thread's.
fn put(list: &mut Vec<Access>, thread: u32, access: Access) {
    match list.iter_mut().find(|old| old.thread == thread) {
        Some(old) => *old = access,
        None => list.push(access),
    }
}

impl Accesses {
    /// Judges the access, and keeps it; `below` tells whether an earlier one is below it.
    #[inline]
    pub fn access(&mut self, x: u32, stores: bool, me: Access, below: impl Fn(&Access) -> bool) {
        if x as usize >= self.vars.len() {
            self.vars.resize_with(x as usize + 1, || Variable {
                store: NO_ACCESS,
                load: NO_ACCESS,
                more_stores: Vec::new(),
                more_loads: Vec::new(),
            });
        }
        let var = &mut self.vars[x as usize];
        let thread = me.thread;
        let mut latest = NO_ACCESS;
        let mut earlier_stores = true;
        let mut races = false;
        let store_races =
            var.store.thread != NONE && var.store.thread != thread && !below(&var.store);
        if store_races {
            latest = var.store;
            races = true;
        } else {
            for other in &var.more_stores {
                if other.thread != thread && (!races || other.index > latest.index) && !below(other)
                {
                    latest = *other;
                    races = true;
                }
            }
        }
        if !stores {
            if races {
                let race = Race {
                    later: me,
                    earlier: latest,
                    var: x,
                    later_stores: false,
                    earlier_stores,
                };
                self.races.push(race);
            }
            if var.load.thread != thread && var.load.thread != NONE {
                if !var.more_loads.is_empty() {
                    put(&mut var.more_loads, thread, var.load);
                } else if !below(&var.load) {
                    var.more_loads.push(var.load);
                }
            }
            var.load = me;
            return;
        }
        if var.load.thread != NONE {
            if var.load.thread != thread
                && (!races || var.load.index > latest.index)
                && !below(&var.load)
            {
                latest = var.load;
                earlier_stores = false;
                races = true;
            }
            for other in &var.more_loads {
                if other.thread != thread && (!races || other.index > latest.index) && !below(other)
                {
                    latest = *other;
                    earlier_stores = false;
                    races = true;
                }
            }
        }
        if !races {
            var.store = me;
            var.load = NO_ACCESS;
            var.more_stores.clear();
            var.more_loads.clear();
            return;
        }
        self.races.push(Race {
            later: me,
            earlier: latest,
            var: x,
            later_stores: true,
            earlier_stores,
        });
        if store_races {
            put(&mut var.more_stores, thread, var.store);
        } else {
            var.more_stores.retain(|old| old.thread != thread);
        }
        var.store = me;
    }
}
