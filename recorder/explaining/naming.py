"""What the trace's names mean: the variables and locks of the recorder by the symbol, the block or the stack
where they lie, the threads by name and start, the locations by their stacks of source lines. Each answer is a
dictionary, as `--json` prints it. Names of another tool's trace stand as they are."""
import re

from .names import source, text_of
from .replay import place_of
from .symbols import PLACE

IN_BLOCK = re.compile(rb'((?:heap|map)\d+)\+0x([0-9a-f]+)\Z')
ON_STACK = re.compile(rb'stack(\d+)-0x([0-9a-f]+)\Z')
# Behind the recorder's name of an object: `.17` for a signal of it, `.T2` for T2's part of a reader-writer lock,
# `@T2` for atomic operations of T2.
PART = re.compile(rb'(.*[+-]0x[0-9a-f]+|0x[0-9a-f]+)(\.\d+|\.T\d+|@T\d+)\Z', re.S)


class Naming:
    def __init__(self, info, symbols, forks):
        """`forks` has of each thread who started it, and the location: {thread: (thread, location)}."""
        self.info, self.symbols, self.forks = info, symbols, forks
        self._threads = {}

    def stack(self, location):
        """The frames of a location, the innermost first."""
        place, number = place_of(location)
        return self.frames(place, number or 0)

    def frames(self, place, stack):
        frames = list(self.symbols.frames(place))
        for caller in self.info.callers(stack):
            frames += self.symbols.frames(caller)
        return [self._frame(frame) for frame in frames]

    def _frame(self, frame):
        return {'function': frame.function, 'file': frame.file, 'line': frame.line,
                'text': self.symbols.text(frame.file, frame.line), 'place': frame.place,
                'is_system': frame.is_system}

    def thread(self, name):
        """A thread: its name in the trace, what the program called it, its start function, and its start."""
        if name not in self._threads:
            self._threads[name] = self._thread(name)
        return self._threads[name]

    def _thread(self, name):
        known = self.info.threads.get(name)
        made = {'name': text_of(name), 'called': None, 'start': None, 'started_by': None, 'started_at': None}
        if name in self.forks:
            by, location = self.forks[name]
            made['started_by'], made['started_at'] = text_of(by), main_frame(self.stack(location))
        if known is None:
            return made
        # A thread that was given no name has that of the program, cut as the system does.
        if known.name and known.name != (self.info.program or b'').rsplit(b'/', 1)[-1][:15]:
            made['called'] = text_of(known.name)
        if known.start:
            frame = self.symbols.frames(known.start)[-1]
            made['start'] = None if frame.is_system else frame.function
        if known.creator and known.place:
            made['started_by'] = text_of(known.creator)
            made['started_at'] = main_frame(self.frames(known.place, known.stack))
        if name == b'T0':
            made['start'] = 'main'
        return made

    def variable(self, name):
        """A variable or a lock: what kind of memory it is, and which."""
        match = PART.match(name)
        whole, part = match.groups() if match else (name, b'')
        made = {'name': text_of(name), 'kind': 'other', 'text': f'`{text_of(whole)}`',
                'part': text_of(part), 'symbol': None, 'offset': None, 'size': None, 'declared': None,
                'thread': None, 'block': None}
        in_block, on_stack, in_file = IN_BLOCK.match(whole), ON_STACK.match(whole), PLACE.match(whole)
        if in_block:
            self._add_block(made, in_block[1], int(in_block[2], 16))
        elif on_stack:
            thread = b'T' + on_stack[1]
            made.update(kind='stack', thread=self.thread(thread)['name'], offset=-int(on_stack[2], 16))
            made['text'] = f'memory on the stack of {thread_text(self.thread(thread))}'
        elif in_file:
            self._add_symbol(made, in_file[1], int(in_file[2], 16))
        return made

    def _add_block(self, made, name, offset):
        block = self.info.block(name)
        what = 'heap' if name.startswith(b'heap') else 'mapped'
        made.update(kind=what, offset=offset, text=f'byte {offset} of `{text_of(name)}`')
        if block is None:
            return
        frames = self.frames(block.place, block.stack) if block.place else []
        made.update(size=block.size, block={
            'name': text_of(name), 'size': block.size, 'frames': frames,
            'thread': self.thread(block.thread)['name'] if block.thread else None})
        made['text'] = f'byte {offset} of a {what} block of {block.size} bytes'

    def _add_symbol(self, made, file, offset):
        symbol = self.symbols.variable(file, offset)
        if symbol is None:
            return
        behind = f'+{symbol.offset}' if symbol.offset else ''
        made.update(kind='global', symbol=symbol.name, offset=symbol.offset, size=symbol.size,
                    text=f'`{symbol.name}{behind}`')
        if symbol.declared:
            made['declared'] = {'file': symbol.declared[0], 'line': symbol.declared[1]}


def main_frame(frames):
    """The frame of the program to name, where one is to stand for all."""
    return next((frame for frame in frames if not frame['is_system']), frames[0] if frames else None)


def thread_text(thread):
    called = thread['called'] or thread['start']
    return f'{thread["name"]} ({called})' if called else thread['name']


def where(frame):
    """The source line of a frame, or else its place as it stands in the trace."""
    return source(frame['file'], frame['line']) if frame['file'] else frame['place']
