"""Reads TRACE.info, which the recorder writes beside a trace: the files that were loaded, the threads, the
stacks, and the blocks of the heap. recorder/README.md describes its lines."""
import os
import re
from collections import namedtuple

ESCAPED = re.compile(rb'\\(.)', re.S)
MEANT = {b't': b'\t', b'n': b'\n', b'r': b'\r'}

# `path` and `build` (the build-id in hex) of a file; `-` in the file is None here.
File = namedtuple('File', 'path build')
# Of a thread: its name, where its function starts, and who started it where, on which stack.
Thread = namedtuple('Thread', 'name start creator place stack')
# Of a block of the heap: its size, and who allocated it where, on which stack.
Block = namedtuple('Block', 'size thread place stack')


class Info:
    """What is known beside the trace. Without a file nothing is."""

    def __init__(self):
        self.is_there, self.status, self.program, self.time = False, None, None, 0
        self.files, self.threads, self.blocks = {}, {}, {}
        self._parents, self._places = {}, {}

    def read(self, path):
        """Adds what the file says; a line of another form is skipped."""
        try:
            file = open(path, 'rb')
        except FileNotFoundError:
            return self
        with file:
            self.time = os.fstat(file.fileno()).st_mtime
            self.is_there = file.readline().split(b'\t')[0] == b'wcp-info'
            for line in file if self.is_there else ():
                word, *fields = line.rstrip(b'\n').split(b'\t')
                try:
                    self._keep(word, [None if field == b'-' else field for field in fields])
                except (ValueError, TypeError, IndexError):
                    continue
        return self

    def _keep(self, word, fields):
        if word == b'stack':
            number = int(fields[0])
            self._parents[number] = int(fields[1])
            self._places[number] = _plain(fields[2])
        elif word == b'block':
            self.blocks[fields[0]] = fields[1:5]
        elif word == b'thread':
            name, start, creator, place, stack = map(_plain, fields[1:6])
            self.threads[_plain(fields[0])] = Thread(name, start, creator, place, int(stack or 0))
        elif word == b'file':
            self.files[_plain(fields[0])] = File(_plain(fields[1]), _plain(fields[2]))
        elif word == b'process':
            self.program = _plain(fields[1])
        elif word == b'end':
            self.status = _plain(fields[0])

    def block(self, name):
        """The block with this name, such as heap12; None where it is not known."""
        fields = self.blocks.get(name)
        if fields is None:
            return None
        size, thread, place, stack = map(_plain, fields)
        return Block(int(size or 0), thread, place, int(stack or 0))

    def callers(self, stack):
        """The places of the calls of a stack, the innermost first."""
        places = []
        while stack in self._parents and len(places) < 1000:
            places.append(self._places[stack])
            stack = self._parents[stack]
        return places


def _plain(field):
    """A field as it was before it was written."""
    if field is None or b'\\' not in field:
        return field
    return ESCAPED.sub(lambda match: MEANT.get(match[1], match[1]), field)
