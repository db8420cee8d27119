"""Reads a trace. A line is an event, `thread|operation(argument)|location`; events are numbered from 1, empty
lines aside. The first pass keeps the acquires, releases, forks and joins alone, and where in the file each
chunk of events begins, so that single events and parts of the trace can be read again."""
import os
import re
from array import array
from bisect import bisect_right

CHUNK = 1 << 16
SYNC = re.compile(rb'\|(acq|rel|fork|join)\(([^|\n]*)\)\|')
LINE = re.compile(rb'([^|]*)\|([a-z]+)\(([^|]*)\)\|([^|]*)\Z')
EMPTY = re.compile(rb'\n\r?(?=\n)')
ACQUIRE, RELEASE, FORK, JOIN = range(4)
OPERATIONS = {b'acq': ACQUIRE, b'rel': RELEASE, b'fork': FORK, b'join': JOIN}


class Names:
    """Names, numbered from 0 as they first appear."""

    def __init__(self):
        self.numbers, self.names = {}, []

    def number(self, name):
        number = self.numbers.setdefault(name, len(self.names))
        if number == len(self.names):
            self.names.append(name)
        return number


class Trace:
    """The trace of a file that is read from any place. `event`, `thread`, `operation` and `argument` are one
    entry for each acquire, release, fork and join, in the order of the trace."""

    def __init__(self, path, told=lambda done, events: None):
        self.path, self.bytes, self.events = path, os.path.getsize(path), 0
        self.threads, self.locks = Names(), Names()
        self.event, self.thread = array('Q'), array('I')
        self.operation, self.argument = array('B'), array('I')
        self._firsts, self._offsets = array('Q'), array('Q')
        with open(path, 'rb') as self._file:
            self._scan(told)
        self._file = None

    def _scan(self, told):
        offset, rest = 0, b''
        while True:
            read = self._file.read(CHUNK)
            cut = read.rfind(b'\n') + 1 if read else 0
            if read and not cut:
                rest += read
                continue
            piece, rest = rest + read[:cut], read[cut:]
            if piece:
                self._firsts.append(self.events)
                self._offsets.append(offset)
                offset += len(piece)
                self._keep(_lines_of(piece))
                told(offset, self.events)
            if not read:
                self._offsets.append(offset)
                return

    def _keep(self, text):
        """Keeps what is no access in these lines, and counts the events."""
        for number, match in _found(SYNC, text, self.events):
            operation, argument = match.groups()
            start = match.start()
            self.event.append(number)
            self.thread.append(self.threads.number(text[text.rfind(b'\n', 0, start) + 1:start]))
            self.operation.append(OPERATIONS[operation])
            names = self.locks if operation in (b'acq', b'rel') else self.threads
            self.argument.append(names.number(argument))
        self.events += text.count(b'\n') - 1

    def _chunk(self, number):
        start, end = self._offsets[number], self._offsets[number + 1]
        if self._file is None:
            self._file = open(self.path, 'rb')
        self._file.seek(start)
        return _lines_of(self._file.read(end - start))

    def lines(self, numbers):
        """The lines of these events, as (thread, operation, argument, location), by number."""
        lines, at, text = {}, None, []
        for number in sorted(set(numbers)):
            chunk = bisect_right(self._firsts, number - 1) - 1
            if chunk < 0 or number > self.events:
                continue
            if chunk != at:
                at, text = chunk, self._chunk(chunk).split(b'\n')
            match = LINE.match(text[number - self._firsts[chunk]].rstrip(b'\r'))
            if match:
                lines[number] = match.groups()
        return lines

    def accesses(self, threads, first, last):
        """The accesses of these threads from one event to another: (number, thread, operation, variable)."""
        either = b'|'.join(re.escape(thread) for thread in sorted(threads))
        pattern = re.compile(rb'\n(' + either + rb')\|([rw])\(([^|\n]*)\)\|')
        for chunk in range(max(bisect_right(self._firsts, first - 1) - 1, 0), len(self._firsts)):
            if self._firsts[chunk] >= last:
                return
            for number, match in _found(pattern, self._chunk(chunk), self._firsts[chunk]):
                if first <= number <= last:
                    yield number, match[1], match[2], match[3]


def _lines_of(piece):
    """These lines without the empty ones: a line feed, and then each line with its own."""
    text = b'\n' + piece + (b'' if piece.endswith(b'\n') else b'\n')
    return EMPTY.sub(b'', text) if b'\n\n' in text or b'\n\r\n' in text else text


def _found(pattern, text, before):
    """Each match, with the number of its event, where this many events come before the text."""
    at = 0
    for match in pattern.finditer(text):
        start = match.start(1)
        before += text.count(b'\n', at, start)
        at = start
        yield before, match
