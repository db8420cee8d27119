"""What stands at an offset of a file: functions with their source lines by `addr2line`, global variables by
`nm`. A file that is not there, or another build than the one that was recorded, names nothing; `notes` say
so."""
import os
import re
import subprocess
from bisect import bisect_right
from collections import namedtuple

from .elf import build_id
from .names import text_of

PLACE = re.compile(rb'(.+)\+0x([0-9a-f]{1,16})\Z', re.S)
LINE = re.compile(r'(.*):(\d+)(?: \(discriminator \d+\))?\Z', re.S)
END = 'ffffffffffffffff'
# Headers and libraries of the system, and the recorder's own files.
HEADERS = ('/usr/include/', '/usr/lib/', '/usr/local/include/')
LIBRARIES = ('/lib/', '/lib64/', '/usr/lib/', '/usr/lib64/')
RECORDER = re.compile(r'.*\blib(tsan|clang_rt\.tsan[\w-]*)\.so[.\d]*\Z|.*\brecorder/src/\w+\.[ch]\Z')

# A frame of a stack: `function`, `file` and `line` are None where they are not known; `place` is its location;
# `is_system`: whether it is of the system or the recorder, and not of the program.
Frame = namedtuple('Frame', 'function file line place is_system')
# A global variable: `offset` is how far behind its beginning; `declared` is its source line, or None.
Symbol = namedtuple('Symbol', 'name offset size declared')


class Symbols:
    def __init__(self, info):
        self.info, self.notes, self._program = info, [], info.program and os.fsdecode(info.program)
        self._paths, self._servers, self._tables, self._sources, self._frames = {}, {}, {}, {}, {}

    def close(self):
        for server in self._servers.values():
            if server:
                server.stdin.close()
                server.wait()

    def path_of(self, name):
        """The path of a file that locations name; None where it names nothing, of which a note is kept."""
        if name not in self._paths:
            path, why = self._look(name)
            self._paths[name] = None if why else path
            if why:
                self.notes.append(f'{text_of(name)}: {why}')
        return self._paths[name]

    def _look(self, name):
        file = self.info.files.get(name)
        if file is None or file.path is None:
            return None, 'no file of this name was recorded' if self.info.is_there else None
        path = os.fsdecode(file.path)
        try:
            build = build_id(path)
        except OSError as error:
            return None, f'{text_of(file.path)} cannot be read ({error.strerror}), so no lines are named'
        if file.build is not None and build != file.build.decode('ascii', 'replace'):
            return None, f'{text_of(file.path)} is another build than was recorded, so no lines are named'
        if file.build is None and os.path.getmtime(path) > self.info.time:
            return None, (f'{text_of(file.path)} has no build-id and is newer than the trace, so no lines are '
                          'named')
        return path, None

    def frames(self, place):
        """What stands at a place, the innermost inlined call first. At least one frame."""
        if place not in self._frames:
            self._frames[place] = self._ask(place) or [
                Frame(None, None, None, text_of(place), self._is_library(PLACE.match(place)))]
        return self._frames[place]

    def _ask(self, place):
        match = PLACE.match(place)
        path = match and self.path_of(match[1])
        server = path and self._server(path)
        if not server:
            return None
        server.stdin.write(f'0x{match[2].decode()}\n0x{END}\n')
        server.stdin.flush()
        is_library = self._is_library(match)
        said = []
        while (line := server.stdout.readline()) and END not in line:
            said.append(line.rstrip('\n'))
        server.stdout.readline(), server.stdout.readline()
        frames = []
        for function, where in zip(said[1::2], said[2::2]):
            found = LINE.match(where)
            file = os.path.normpath(found[1]) if found and found[1] != '??' else None
            frames.append(Frame(None if function == '??' else function, file, int(found[2]) if file else None,
                                text_of(place), is_library or _is_system(function, file)))
        return frames if frames and (frames[0].function or frames[0].file) else None

    def _is_library(self, place):
        """Whether the file of a place is of the system or the recorder, wherever it is."""
        file = self.info.files.get(place[1]) if place else None
        path = os.fsdecode(file.path) if file and file.path else ''
        return path != self._program and (path.startswith(LIBRARIES) or bool(RECORDER.match(path)))

    def _server(self, path):
        """A running addr2line, which answers one address after another; None without the tool."""
        if path not in self._servers:
            try:
                self._servers[path] = subprocess.Popen(
                    ['addr2line', '-a', '-f', '-C', '-i', '-e', path], stdin=subprocess.PIPE,
                    stdout=subprocess.PIPE, stderr=subprocess.DEVNULL, text=True, errors='backslashreplace')
            except OSError:
                self._servers[path] = None
                self.notes.append('there is no addr2line, so no lines are named (package binutils)')
        return self._servers[path]

    def variable(self, file, offset):
        """The global variable in which an offset of a file lies; None where it is not known."""
        path = self.path_of(file)
        if path is None:
            return None
        if path not in self._tables:
            self._tables[path] = _table_of(path)
        begins, symbols = self._tables[path]
        at = bisect_right(begins, offset) - 1
        if at < 0 or offset >= begins[at] + max(symbols[at][1], 1):
            return None
        name, size, declared = symbols[at]
        return Symbol(name, offset - begins[at], size, declared)

    def text(self, file, line):
        """The text of a source line; None where it is not there."""
        if file is None or not line:
            return None
        if file not in self._sources:
            try:
                with open(file, errors='backslashreplace') as source:
                    self._sources[file] = source.read().split('\n')
            except (OSError, ValueError):
                self._sources[file] = []
        lines = self._sources[file]
        return lines[line - 1].strip() if line <= len(lines) else None


def _table_of(path):
    """The symbols of data, by their addresses: (begins, [(name, size, declared)]). Their lines are left out
    where they take long to find, as in a large file."""
    for options, limit in ((['-l'], 5), ([], None), (['-D'], None)):
        try:
            done = subprocess.run(['nm', '-C', '-S', '-n', '--defined-only', *options, path], text=True,
                                  capture_output=True, errors='backslashreplace', timeout=limit)
        except (OSError, subprocess.TimeoutExpired):
            continue
        found = []
        for line in done.stdout.split('\n'):
            symbol, _, declared = line.partition('\t')
            fields = symbol.split(' ', 3)
            if len(fields) == 4 and fields[2] in 'bBdDrRgGsSvVuC':
                where = LINE.match(declared)
                found.append((int(fields[0], 16), fields[3], int(fields[1], 16),
                              (os.path.normpath(where[1]), int(where[2])) if where else None))
        if found:
            found.sort(key=lambda symbol: (symbol[0], -symbol[2]))
            return [symbol[0] for symbol in found], [symbol[1:] for symbol in found]
    return [], []


def _is_system(function, file):
    if file is None:
        return function.startswith(('std::', '__gnu_cxx::'))
    return file.startswith(HEADERS) or bool(RECORDER.match(file))

