"""Makes an entry of each pair of places: the first race of the pair, what it is about, and what hid it."""
from .happens_before import orders
from .naming import main_frame
from .names import text_of
from .sections import sections_of
from .trace import FORK

WORDS = {b'r': 'load', b'w': 'store'}


class OtherTrace(Exception):
    """A race of the report is not in the trace."""


def forks_of(trace):
    """Who started each thread, and at which event: {thread: (thread, event)}."""
    return {trace.argument[index]: (trace.thread[index], trace.event[index])
            for index, operation in enumerate(trace.operation) if operation == FORK}


class Maker:
    """Makes the entries of one trace. `name` makes what names its threads, variables and places, from who
    forked each thread."""

    def __init__(self, trace, pairs, name):
        self.trace, self.pairs = trace, pairs
        number = trace.threads.number
        self.orders = orders(trace, [
            (race.first.number, number(race.first.thread), race.second.number, number(race.second.thread))
            for race in (pair.race for pair in pairs)])
        steps = [step for order in self.orders for step in order.steps or ()]
        self.sections = sections_of(trace, steps)
        forks = forks_of(trace)
        events = {event.number for pair in pairs for event in pair.race}
        events.update(event for _, event in forks.values())
        events.update(event for step in steps for event in (step.release, step.acquire))
        events.update(event for order in self.orders
                      for _, event in order.held_first + order.held_second)
        self.lines = trace.lines(events)
        names = trace.threads.names
        self.naming = name({names[thread]: (names[by], self.lines[event][3])
                            for thread, (by, event) in forks.items()})

    def entries(self):
        for pair, order in zip(self.pairs, self.orders):
            first, second = pair.race
            for event in pair.race:
                if self.lines.get(event.number) != (event.thread, event.operation, event.variable,
                                                    event.location):
                    raise OtherTrace(event.number)
            yield {
                'variable': self.naming.variable(second.variable),
                'other_variables': len(pair.variables) - 1,
                'events': pair.count,
                'stacks': len(pair.stacks),
                'first': self._access(first, order.held_first),
                'second': self._access(second, order.held_second),
                'is_hidden': order.steps is not None, 'is_recorded': self.naming.info.is_there,
                'steps': self._steps(order.steps or [], second.number),
            }

    def _access(self, event, held):
        variable = self.naming.variable(event.variable)
        return {
            'event': event.number, 'operation': WORDS[event.operation],
            'is_atomic': variable['part'] == '@' + text_of(event.thread),
            'location': text_of(event.location), 'variable': variable['name'],
            'thread': self.naming.thread(event.thread),
            'frames': self.naming.stack(event.location),
            'locks': [self._lock(lock, acquire) for lock, acquire in held],
        }

    def _lock(self, lock, event):
        """A lock, and where it was acquired."""
        return {**self.naming.variable(self.trace.locks.names[lock]), 'event': event, 'at': self._at(event)}

    def _at(self, event):
        return main_frame(self.naming.stack(self.lines[event][3]))

    def _steps(self, steps, second):
        leaves = [step.release for step in steps[1:]] + [second]
        return [self._step(step, left) for step, left in zip(steps, leaves)]

    def _step(self, step, left):
        """A step of the path, whose taker takes the next one, or makes the second access, at event `left`."""
        names = self.trace.threads.names
        made = {'kind': step.kind, 'giver': self.naming.thread(names[step.giver]),
                'taker': self.naming.thread(names[step.taker])}
        if step.kind != 'lock':
            return {**made, 'event': step.acquire, 'at': self._at(step.acquire)}
        giver, taker = self.sections[step]
        conflict = giver.first_conflict(taker)
        return {
            **made, 'lock': self.naming.variable(self.trace.locks.names[step.lock]),
            'released': {'event': step.release, 'at': self._at(step.release)},
            'acquired': {'event': step.acquire, 'at': self._at(step.acquire)},
            'empty': [section['name'] for section, is_empty in
                      ((made['giver'], not giver.seen), (made['taker'], not taker.seen)) if is_empty],
            'conflict': conflict, 'conflict_is_later': conflict is not None and conflict > left,
        }
