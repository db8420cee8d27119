"""The sections of a path: which accesses of theirs conflict, and which have none in the trace."""
from bisect import bisect_left

from .trace import ACQUIRE, RELEASE


class Section:
    """A thread's section on a lock, from the event of its acquire to that of its release, or to the end of
    the trace. `seen` has of each variable the first load and the first store, or None."""

    def __init__(self, thread, first, last):
        self.thread, self.first, self.last, self.seen = thread, first, last, {}

    def add(self, event, operation, variable):
        of_variable = self.seen.setdefault(variable, [None, None])
        which = operation == b'w'
        if of_variable[which] is None:
            of_variable[which] = event

    def first_conflict(self, later):
        """The first event of a later section that conflicts with an access of this one; None without."""
        found = []
        for variable in self.seen.keys() & later.seen.keys():
            load, store = later.seen[variable]
            found += [store] if self.seen[variable][1] is None else [load, store]
        return min((event for event in found if event is not None), default=None)


def sections_of(trace, steps):
    """The two sections of each step that is by a lock: {step: (giver's, taker's)}."""
    steps = [step for step in steps if step.kind == 'lock']
    ends = _ends(trace, {(step.acquire, step.taker, step.lock) for step in steps})
    made = {}
    for step in steps:
        made.setdefault((step.giver, step.opened), Section(step.giver, step.opened, step.release))
        made.setdefault((step.taker, step.acquire),
                        Section(step.taker, step.acquire, ends[step.acquire]))
    _fill(trace, sorted(made.values(), key=lambda section: section.first))
    return {step: (made[step.giver, step.opened], made[step.taker, step.acquire]) for step in steps}


def _ends(trace, acquires):
    """Where the sections end that these outer acquires open: {event: event}."""
    ends, depths = {event: trace.events for event, _, _ in acquires}, {}
    waiting = {event: (thread, lock) for event, thread, lock in acquires}
    index = bisect_left(trace.event, min(waiting, default=0))
    while index < len(trace.event) and (waiting or depths):
        event, key = trace.event[index], (trace.thread[index], trace.argument[index])
        operation = trace.operation[index]
        if event in waiting:
            depths[waiting.pop(event)] = [1, event]
        elif operation in (ACQUIRE, RELEASE) and key in depths:
            depths[key][0] += 1 if operation == ACQUIRE else -1
            if depths[key][0] == 0:
                ends[depths.pop(key)[1]] = event
        index += 1
    return ends


def _fill(trace, sections):
    """Adds their accesses to these sections, which are in the order of their acquires."""
    names, numbers = trace.threads.names, trace.threads.numbers
    at = 0
    while at < len(sections):
        # Sections that overlap, one after another, are read at once.
        end, last = at, sections[at].last
        while end < len(sections) and sections[end].first <= last:
            last = max(last, sections[end].last)
            end += 1
        group, coming = {}, sections[at:end]
        threads = {names[section.thread] for section in coming}
        for event, thread, operation, variable in trace.accesses(threads, sections[at].first, last):
            while coming and coming[0].first <= event:
                section = coming.pop(0)
                group.setdefault(section.thread, []).append(section)
            thread = numbers[thread]
            if any(section.last < event for section in group.get(thread, ())):
                group[thread] = [section for section in group[thread] if event <= section.last]
            for section in group.get(thread, ()):
                section.add(event, operation, variable)
        at = end
