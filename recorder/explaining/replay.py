"""Runs `wcp` on a trace, and finds the pairs of places in a report."""
import functools
import os
import re
import subprocess
import tempfile
from collections import namedtuple

COUNTS = re.compile(rb'events (\d+) threads (\d+) locks (\d+) variables (\d+) races (\d+)\Z')
STACK = re.compile(rb'(.*\+0x[0-9a-f]+)#(\d+)\Z', re.S)
PIECE = 1 << 20

# An event of a race: its number in the trace; the rest as it stands there.
Event = namedtuple('Event', 'number thread operation variable location')
# A race: the earlier event and the later one.
Race = namedtuple('Race', 'first second')


class Refused(Exception):
    """There is no report. `status` is what `wcp` ended with, `out` what it printed in place of one."""

    def __init__(self, status, out):
        super().__init__(status)
        self.status, self.out = status, out


class Pair:
    """A pair of places, with its first race, and the number of its races and of their variables."""

    def __init__(self, race):
        self.race, self.count, self.variables, self.stacks = race, 0, set(), set()

    def add(self, race):
        self.count += 1
        self.variables.add(race.second.variable)
        self.stacks.add(tuple(sorted((race.first.location, race.second.location))))


def find_program(given, here):
    """The program `wcp`: the one that was given, else the first of those that the folder of these commands
    has beside it; None without."""
    if given:
        return given if os.access(given, os.X_OK) else None
    top = os.path.dirname(here)
    places = (os.path.join(here, 'wcp'), os.path.join(top, 'crates/wcp/out/wcp'), os.path.join(top, 'wcp'))
    return next((path for path in places if os.path.isfile(path) and os.access(path, os.X_OK)), None)


def answer_of(program, command, trace, threads, told=lambda done: None, **how):
    """What this command of `wcp` prints of the trace, such as the report of `replay`."""
    words = [program, command] + (['--threads', str(threads)] if threads else [])
    with tempfile.TemporaryFile() as out, open(trace, 'rb') as text:
        run = subprocess.Popen(words, stdin=subprocess.PIPE, stdout=out, **how)
        done = 0
        try:
            while piece := text.read(PIECE):
                run.stdin.write(piece)
                done += len(piece)
                told(done)
            run.stdin.close()
        except BrokenPipeError:
            pass
        status = run.wait()
        out.seek(0)
        answer = out.read()
    if status not in (0, 1):
        raise Refused(status if status > 0 else 128 - status, answer)
    return answer


def races_of(report):
    """The races of a report, in its order. What is none is refused with the status of its cause."""
    lines = report.split(b'\n')
    counts = COUNTS.match(lines[0])
    if not counts:
        raise Refused(3 if lines[0].startswith(b'line ') else 4, report)
    for line in lines[1:]:
        if line:
            yield race_of(line)


def race_of(line):
    """The race of a line of the report."""
    fields = line.split(b'|')
    if len(fields) != 7 or b' with ' not in fields[3]:
        raise Refused(4, line)
    location, first = fields[3].rsplit(b' with ', 1)
    return Race(_event(first, fields[4], fields[5], fields[6]),
                _event(fields[0], fields[1], fields[2], location))


def _event(number, thread, access, location):
    return Event(int(number), thread, access[:1], access[2:-1], location)


@functools.lru_cache(maxsize=None)
def place_of(location):
    """A location without the number of its stack, and that number, or None."""
    match = STACK.match(location)
    return (match[1], int(match[2])) if match else (location, None)


def places_of(race):
    """The two places of a race, in the order of their text."""
    return tuple(sorted(place_of(event.location)[0] for event in race))


def pairs_of(races):
    """The pairs of places, in the order of the first race of each: {places: Pair}."""
    pairs = {}
    for race in races:
        places = places_of(race)
        if places not in pairs:
            pairs[places] = Pair(race)
        pairs[places].add(race)
    return pairs
