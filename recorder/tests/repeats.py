"""Tests that a report names the same pairs of places with and without the accesses that are left out as
repeated: of a program, and of small random traces, from which they are left out here by the same rule."""
import os
import random
import re

import command
import room

PAIR = re.compile(r'\d+\|[^|]*\|([rw]\([^|]*\))\|([^#|]*?)(?:#\d+)? with '
                  r'\d+\|[^|]*\|([rw]\([^|]*\))\|([^#|]*?)(?:#\d+)?$')
TRACES = 300


def pairs(report, ignored=''):
    """The pairs of a report, but for those of one variable: of each side operation, variable and place."""
    return {PAIR.match(line).groups() for line in report[1:] if f'({ignored})' not in line}


def is_access(event):
    return event[1] in 'rw'


def without_repeats(events):
    """The rule of src/repeats.c, by variables."""
    left, latest, others, held = [], {}, {}, {}
    for thread, operation, name, place in events:
        event = thread, operation, name, place
        if not is_access(event):
            others[thread] = others.get(thread, 0) + 1
            held[thread] = held.get(thread, 0) + (1 if operation == 'acq' else -1)
            left.append(event)
            continue
        access = thread, operation, place, others.get(thread, 0)
        if latest.get(name) != access or held.get(thread, 0):
            left.append(event)
        latest[name] = access
    return left


def random_events(chance):
    """A legal trace of some threads, with sections, and accesses at few places."""
    count, events, owners, held = chance.randint(2, 4), [], {}, {}
    variables, locks = chance.randint(1, 3), chance.randint(1, 2)
    thread = 0
    for _ in range(chance.randint(8, 40)):
        if chance.random() < 0.45:
            thread = chance.randrange(count)
        own, what = held.setdefault(thread, []), chance.random()
        if what < 0.12:
            lock = chance.randrange(locks)
            if lock not in owners:
                owners[lock] = thread
                own.append(lock)
                events.append((thread, 'acq', f'l{lock}', '-'))
        elif what < 0.27:
            if own:
                lock = own.pop()
                del owners[lock]
                events.append((thread, 'rel', f'l{lock}', '-'))
        else:
            operation, name = chance.choice('rw'), f'x{chance.randrange(variables)}'
            access = thread, operation, name, f'{thread}{operation}{chance.choice("AB")}'
            events += [access] * chance.choice((1, 1, 2))
    return events


def judged(shown, folder, events):
    path = os.path.join(folder, 'trace.txt')
    room.write(path, ''.join(f'T{event[0]}|{event[1]}({event[2]})|{event[3]}\n' for event in events))
    refused, report = shown.judge(path)
    return refused, pairs(report) if report else set()


def show_traces(shown, folder):
    chance, dropped, differ = random.Random(1), 0, []
    for _ in range(TRACES):
        events = random_events(chance)
        left = without_repeats(events)
        dropped += len(events) - len(left)
        if judged(shown, folder, events) != judged(shown, folder, left):
            differ.append(events)
    shown.tell(f'{TRACES} random traces have repeats', dropped > TRACES, dropped)
    shown.tell('without repeats they have the same pairs', not differ, differ[:1])


def show_program(shown, folder):
    app, error = command.build(folder, 'repeats.c', '-fsanitize=thread')
    if not shown.tell('repeats.c builds', not error, error):
        return
    # The spinning thread's last load may come before or after the store that it waits for.
    spun = [f'app+{address:#x}' for address, _, name in room.symbols(app) if name == 'spun'][0]
    found = {}
    for setting in ('', 'WCP_ALL', 'WCP_LESS'):
        env = {**os.environ, **({setting: '1'} if setting else {})}
        done = room.run([*room.RECORD, '-o', 'trace.txt', app], cwd=folder, env=env)
        refused, report = shown.judge(os.path.join(folder, 'trace.txt'))
        shown.tell(f'repeats.c {setting}: a report', len(report) > 1, refused or done.stderr)
        found[setting] = pairs(report, spun), int(report[0].split()[1]) if report else 0
    more, less = found['WCP_ALL'][0] - found[''][0], found[''][0] - found['WCP_ALL'][0]
    shown.tell('repeats.c: the same pairs as with WCP_ALL=1', not more and not less, (more, less))
    shown.tell('repeats.c: fewer events', found[''][1] < 1000 < found['WCP_ALL'][1], found)
    shown.tell('repeats.c: still fewer with WCP_LESS=1', found['WCP_LESS'][1] < found[''][1], found)


def show(shown):
    if command.COMPILERS:
        for part in (show_program, show_traces):
            part(shown, shown.folder('repeats_' + part.__name__))
