"""Paths of happens-before on random legal traces, compared with a search from event to event: whether there
is one, that each of its steps is in the trace, and that no path has fewer steps; where steps are counted up
to a low number, that longer paths are found all the same."""
import os
import random

from explaining import happens_before
from explaining.trace import Trace

TRACES, EVENTS = 200, 70


def random_trace(choose):
    """The lines of a legal trace: threads that are forked and joined, and re-entrant locks."""
    lines, alive, unborn, holds = [], ['T0'], ['T1', 'T2', 'T3', 'T4'], {}
    while len(lines) < EVENTS:
        thread, what = choose.choice(alive), choose.random()
        own = [lock for lock, (holder, _) in holds.items() if holder == thread]
        lock = choose.choice('abc')
        if what < 0.1 and unborn:
            lines.append((thread, 'fork', unborn[0]))
            alive.append(unborn.pop(0))
        elif what < 0.13 and len(alive) > 2:
            other = choose.choice([name for name in alive if name not in ('T0', thread)] or [''])
            if other and not any(holder == other for holder, _ in holds.values()):
                alive.remove(other)
                lines.append((thread, 'join', other))
        elif what < 0.4 and holds.get(lock, (thread, 0))[0] == thread:
            holds[lock] = (thread, holds.get(lock, (thread, 0))[1] + 1)
            lines.append((thread, 'acq', lock))
        elif what < 0.7 and own:
            lock = choose.choice(own)
            depth = holds[lock][1] - 1
            holds.pop(lock)
            if depth:
                holds[lock] = (thread, depth)
            lines.append((thread, 'rel', lock))
        else:
            lines.append((thread, choose.choice('rw'), choose.choice('xyz')))
    return lines


def edges_of(lines):
    """The edges from event to later event, across threads: {event: [(earlier event, kind)]}."""
    edges, depths, releases, ended = {}, {}, {}, {}
    forked, last = {}, {}
    for event, (thread, operation, argument) in enumerate(lines, 1):
        into = edges.setdefault(event, [])
        if thread not in last and thread in forked:
            into.append((forked[thread], 'fork'))
        if operation == 'fork':
            forked[argument] = event
        elif operation == 'join':
            into.append((last[argument], 'join') if argument in last else (forked[argument], 'fork and join'))
        elif operation == 'acq':
            depths[argument] = depths.get(argument, 0) + 1
            if depths[argument] == 1:
                into += [(release, 'lock') for release in releases.get(argument, [])]
        elif operation == 'rel':
            depths[argument] -= 1
            if depths[argument] == 0:
                releases.setdefault(argument, []).append(event)
        last[thread] = event
    return edges


def fewest_steps(lines, edges, first):
    """Of each event from `first` on, how few edges across threads lead to it; none where it is not there."""
    steps, last = {first: 0}, {lines[first - 1][0]: first}
    for event in range(first + 1, len(lines) + 1):
        thread = lines[event - 1][0]
        found = [steps[last[thread]]] if thread in last else []
        for source, kind in edges[event]:
            if source in steps:
                found.append(steps[source] + (2 if kind == 'fork and join' else 1))
        if found:
            steps[event] = min(found)
            last[thread] = event
    return steps


def is_path(names, lines, edges, order, first, second):
    """Whether each step of the order is in the trace, one behind the other, from one event to the other."""
    at, thread = first, lines[first - 1][0]
    for step in order.steps:
        giver, taker = names[step.giver], names[step.taker]
        if giver != thread or step.release < at or step.acquire < step.release:
            return False
        if step.kind == 'lock':
            release, acquire = lines[step.release - 1], lines[step.acquire - 1]
            is_edge = (step.release, 'lock') in edges[step.acquire]
            if (release[0], acquire[0]) != (giver, taker) or not is_edge:
                return False
        elif step.kind == 'fork' and lines[step.acquire - 1] != (giver, 'fork', taker):
            return False
        elif step.kind == 'join' and lines[step.acquire - 1] != (taker, 'join', giver):
            return False
        at, thread = step.acquire, taker
    return at <= second and thread == lines[second - 1][0]


def show(shown):
    for levels in (3, happens_before.LEVELS):
        happens_before.LEVELS = levels
        show_levels(shown, levels)


def show_levels(shown, levels):
    choose, path = random.Random(7), os.path.join(shown.room, 'random.txt')
    compared = ordered = several = 0
    for number in range(TRACES):
        lines = random_trace(choose)
        with open(path, 'w') as file:
            file.writelines(f'{thread}|{operation}({argument})|{place}\n'
                            for place, (thread, operation, argument) in enumerate(lines, 1))
        trace = Trace(path)
        accesses = [event for event, line in enumerate(lines, 1) if line[1] in 'rw']
        pairs = [tuple(sorted(choose.sample(accesses, 2))) for _ in range(20)]
        pairs = [(i, j) for i, j in pairs if lines[i - 1][0] != lines[j - 1][0]]
        edges = edges_of(lines)
        found = happens_before.orders(trace, [tuple(value for event in pair for value in (
            event, trace.threads.number(lines[event - 1][0].encode()))) for pair in pairs])
        names = [name.decode() for name in trace.threads.names]
        for (i, j), order in zip(pairs, found):
            wanted = fewest_steps(lines, edges, i).get(j)
            steps = None if order.steps is None else len(order.steps)
            is_right = wanted == steps or (steps and wanted and min(wanted, steps) >= levels - 1)
            compared += 1
            ordered += steps is not None
            several += (steps or 0) > 1
            if not is_right or steps is not None and not is_path(names, lines, edges, order, i, j):
                shown.tell(f'the path from event {i} to {j} of random trace {number}', False, (wanted, order))
    shown.tell(f'paths of random traces, {levels} levels',
               compared > 2000 and ordered > 300 and several > 100, (compared, ordered, several))

