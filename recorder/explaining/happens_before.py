"""How one event happens before another: in fewest steps from thread to thread, each a release of a lock and a
later acquire of it, a fork, or a join. Inner acquires and releases of a re-entrant lock order nothing.

One pass serves all pairs. Each thread and each lock has a number of bits: bit k * (pairs) + p says that the
first event of pair p happens before what comes next there, by at most k steps. A release gives the thread's
bits to the lock; an acquire, a fork and a join hand them on, one step higher. The highest k, LEVELS - 1,
stands for any number of steps. Where bits are new, it is noted whence they came: paths are read from that,
backwards."""
from collections import namedtuple

from .trace import ACQUIRE, FORK, JOIN, RELEASE

LEVELS = 8

# A step of a path. `kind` is 'lock', 'fork' or 'join'; `giver` and `taker` are threads. Of a lock: the events
# of the giver's section, from its acquire to its release, and the taker's acquire. Of a fork or join: its
# event is both `release` and `acquire`.
Step = namedtuple('Step', 'kind giver taker lock opened release acquire')
# Of a pair of events: the steps, or None where the first does not happen before the second; and the locks that
# each event's thread held, as (lock, event of its acquire).
Order = namedtuple('Order', 'steps held_first held_second')


class _Pass:
    def __init__(self, trace, count):
        self.trace, self.count = trace, count
        self.all = (1 << count * LEVELS) - 1
        self.top = ((1 << count) - 1) << count * (LEVELS - 1)
        self.unit = sum(1 << count * level for level in range(LEVELS))
        self.alive = 0
        threads, locks = len(trace.threads.names), len(trace.locks.names)
        self.known, self.whence = [0] * threads, [[] for _ in range(threads)]
        self.left, self.leaving = [0] * locks, [[] for _ in range(locks)]
        self.held = [{} for _ in range(threads)]

    def hand_on(self, bits, thread, event, kind, source):
        bits &= self.alive
        bits = ((bits << self.count) & self.all | bits & self.top) & ~self.known[thread]
        if bits:
            self.known[thread] |= bits
            self.whence[thread].append((bits, event, kind, source))

    def step(self, event, thread, operation, argument):
        if operation == ACQUIRE:
            hold = self.held[thread].setdefault(argument, [0, event])
            hold[0] += 1
            if hold[0] == 1 and self.left[argument] & self.alive:
                self.hand_on(self.left[argument], thread, event, ACQUIRE, argument)
        elif operation == RELEASE:
            hold = self.held[thread].get(argument, [1, event])
            hold[0] -= 1
            if hold[0] == 0:
                self.held[thread].pop(argument, None)
                bits = self.known[thread] & self.alive & ~self.left[argument]
                if bits:
                    self.left[argument] |= bits
                    self.leaving[argument].append((bits, event, thread, hold[1]))
        elif operation == FORK:
            self.hand_on(self.known[thread], argument, event, FORK, thread)
        else:
            self.hand_on(self.known[argument], thread, event, JOIN, argument)

    def begin(self, pair, thread, event):
        bits = self.unit << pair
        self.alive |= bits
        self.known[thread] |= bits
        self.whence[thread].append((bits, event, None, thread))

    def end(self, pair):
        self.alive &= ~(self.unit << pair)

    def locks_held(self, thread):
        return [(lock, hold[1]) for lock, hold in self.held[thread].items()]

    def steps(self, pair, thread, event):
        """The steps by which the first event of the pair happens before this event; None if it does not."""
        level = self._lowest(self.whence[thread], pair, range(LEVELS), event)
        if level is None:
            return None
        steps = []
        while True:
            _, at, kind, source = self._noted(self.whence[thread], pair, level)
            if kind is None:
                return steps[::-1]
            before = (level - 1, level) if level == LEVELS - 1 else (level - 1,)
            if kind == ACQUIRE:
                level = self._lowest(self.leaving[source], pair, before, at)
                _, release, giver, opened = self._noted(self.leaving[source], pair, level)
                steps.append(Step('lock', giver, thread, source, opened, release, at))
            else:
                giver = source
                level = self._lowest(self.whence[giver], pair, before, at)
                steps.append(Step('fork' if kind == FORK else 'join', giver, thread, None, None, at, at))
            thread = giver

    def _noted(self, notes, pair, level):
        bit = 1 << level * self.count + pair
        return next((note for note in notes if note[0] & bit), None)

    def _lowest(self, notes, pair, levels, event):
        for level in levels:
            note = self._noted(notes, pair, level)
            if note is not None and note[1] < event:
                return level
        return None


def orders(trace, pairs):
    """The `Order` of each pair of events. A pair is (first, its thread, second, its thread)."""
    made = _Pass(trace, len(pairs))
    first_held, found = {}, {}
    marks = sorted([(pair[0], 0, number) for number, pair in enumerate(pairs)] +
                   [(pair[2], 1, number) for number, pair in enumerate(pairs)])

    def meet(mark):
        _, is_second, number = mark
        first, giver, second, taker = pairs[number]
        if not is_second:
            first_held[number] = made.locks_held(giver)
            made.begin(number, giver, first)
        else:
            found[number] = Order(made.steps(number, taker, second), first_held[number],
                                  made.locks_held(taker))
            made.end(number)

    at = 0
    for event, thread, operation, argument in zip(trace.event, trace.thread, trace.operation, trace.argument):
        while at < len(marks) and marks[at][0] < event:
            meet(marks[at])
            at += 1
        if at == len(marks):
            break
        made.step(event, thread, operation, argument)
    for mark in marks[at:]:
        meet(mark)
    return [found[number] for number in range(len(pairs))]
