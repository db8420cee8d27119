"""Runs each program of this folder and compares the variables that race with those that its first lines name.

The first comment of a program has lines `WORD: ..`:
    Races      the variables that race: globals by their names, heap, stack, other, or none
    Levels     the levels to build it at; -O0 -O2 if left out
    Compilers  gcc, clang, or both if left out
    Flags      further options of the compiler
    Status     what it ends with, 0 if left out; less than 0 is a signal
    Cut        the trace is cut short, and a line with these words says so
    Library    a file of this folder, which is built as a shared library beside the program"""
import concurrent.futures
import glob
import os
import re
import time

import room

HERE = os.path.dirname(os.path.realpath(__file__))
RUNS = 5
WORDS = ('Races', 'Levels', 'Compilers', 'Flags', 'Status', 'Cut', 'Library')


def answers(source):
    """The lines `WORD: ..` at the head of a program."""
    found = {}
    for line in room.read(source).splitlines()[:10]:
        line = re.match(r'(?://|/?\s*\*)\s*(\w+): (.*?)(?: \*/)?$', line)
        if line and line[1] in WORDS:
            found[line[1]] = line[2]
    return found


def compiler_words(compiler, source):
    """How an ordinary build calls the compiler, with the sanitizer's library as a shared one."""
    words = [room.COMPILERS[compiler][source.endswith('.cpp')], '-g', '-w', '-pthread', '-fsanitize=thread']
    return words + (['-shared-libsan'] if compiler == 'clang' else [])


def missing(compiler):
    """Why this compiler cannot be tried, or nothing."""
    if not room.has(*room.COMPILERS[compiler]):
        return f'{compiler} (it is not there)'
    if not room.links(' '.join(compiler_words(compiler, '.cpp'))):
        return f"{compiler} (ThreadSanitizer's library is not there)"
    return ''


class Case:
    """One program, built by one compiler at one level."""

    def __init__(self, shown, source, compiler, level):
        self.shown, self.source, self.compiler, self.level = shown, source, compiler, level
        self.name = f'{os.path.basename(source)}, {compiler} {level}'
        self.wanted = answers(source)
        self.races = set(self.wanted['Races'].split()) - {'none'}
        self.folder = shown.folder(self.name)
        self.app = os.path.join(self.folder, 'app')

    def build(self):
        words = compiler_words(self.compiler, self.source) + [self.level]
        words += self.wanted.get('Flags', '').split()
        done = room.run([*words, self.source, '-o', self.app])
        if 'Library' in self.wanted and done.returncode == 0:
            part = os.path.join(HERE, self.wanted['Library'])
            done = room.run([*words, '-fPIC', '-shared', part, '-o', self.app + '.so'])
        return done.stderr[-500:] if done.returncode else ''

    def differs(self, number):
        """How the run with this number is not as it has to be, or nothing."""
        trace = os.path.join(self.folder, f'trace{number}')
        done = room.run([*room.RECORD, '-o', trace, self.app], cwd=self.folder)
        status = int(self.wanted.get('Status', 0))
        status = 125 if 'Cut' in self.wanted else 128 - status if status < 0 else status
        if done.returncode != status:
            return f'status {done.returncode}, and not {status}: {done.stderr[-300:]}'
        if self.wanted.get('Cut', '') not in done.stderr:
            return f'no word of what is missing: {done.stderr}'
        if (left := self.unfinished(trace, done.stderr)):
            return left
        names = set()
        for path in set(glob.glob(trace + '*')) - set(glob.glob(trace + '*.info')):
            refused, report = self.shown.judge(path)
            if refused:
                return f'{os.path.basename(path)}: {refused}'
            names |= room.variables(report, self.tables)
            if not os.path.exists(path + '.info'):
                return f'{os.path.basename(path)}.info is missing'
        if names != self.races:
            return f'races on {sorted(names)}, and not on {sorted(self.races)}'
        return ''

    def unfinished(self, trace, said):
        """Waits for the traces of processes that go on; then says which is half written."""
        names = re.findall(r'goes on, and writes (\S+) when', said)
        awaited = [os.path.join(self.folder, name) for name in names]
        until = time.monotonic() + room.LIMIT
        while time.monotonic() < until:
            left = [path for path in awaited if not os.path.exists(path)]
            if not left:
                break
            time.sleep(0.05)
        left += glob.glob(trace + '*.part*')
        return f'{left} left; {said}' if left else ''

    def judge(self):
        """Whether five runs are as they have to be. After one that hangs there is no other."""
        if (error := self.build()):
            return self.shown.tell(self.name, False, f'does not build: {error}')
        files = [self.app] + [self.app + '.so'] * ('Library' in self.wanted)
        self.tables = {os.path.basename(path): room.symbols(path) for path in files}
        found = []
        while len(found) < RUNS and not any('still running' in text for text in found):
            found.append(self.differs(len(found)))
        failures = sorted({text for text in found if text})
        how_often = sum(map(bool, found))
        text = f'{how_often} of {len(found)} runs: {"; ".join(failures)}'
        return self.shown.tell(self.name, not failures, text)

    def sanitizer(self):
        """The variables that ThreadSanitizer itself names in one run. Of gcc's builds alone, since clang's
        library does not run as a shared one."""
        env = dict(os.environ, TSAN_OPTIONS='exitcode=0')
        done = room.run(['setarch', '-R', self.app], timeout=10, cwd=self.folder, env=env)
        said = done.stdout + done.stderr
        if 'FATAL: ThreadSanitizer' in said or 'error while loading' in said or done.returncode in (124, 127):
            return {'(did not run)'}
        names = {re.sub(r'.*::|\.\d+$', '', name) for name in
                 re.findall(r"Location is global '([^']*)'", said)}
        if 'Location is heap' in said:
            names.add('heap')
        if 'Location is stack' in said:
            names.add('stack')
        if 'WARNING: ThreadSanitizer' in said and not names:
            names.add('other')
        return names


def show(shown, words=()):
    """Judges all programs, or those whose names have these words, and prints what ThreadSanitizer has."""
    cases, compilers = [], []
    for compiler in room.COMPILERS:
        why = missing(compiler)
        if why:
            shown.skip(why)
        else:
            compilers.append(compiler)
    for source in sorted(glob.glob(os.path.join(HERE, '*.c')) + glob.glob(os.path.join(HERE, '*.cpp'))):
        wanted = answers(source)
        if 'Races' in wanted and (not words or any(word in source for word in words)):
            for compiler in wanted.get('Compilers', ' '.join(room.COMPILERS)).split():
                if compiler in compilers:
                    for level in wanted.get('Levels', '-O0 -O2').split():
                        cases.append(Case(shown, source, compiler, level))

    def work(case):
        case.judge()
        return case, case.sanitizer() if case.compiler == 'gcc' and os.path.exists(case.app) else None

    table = {}
    with concurrent.futures.ThreadPoolExecutor(os.cpu_count()) as pool:
        for case, theirs in pool.map(work, cases):
            row = table.setdefault(os.path.basename(case.source), (case.races, set()))
            if theirs is not None:
                row[1].add(' '.join(sorted(theirs)) or 'none')
    print(f'{"program":28}{"what races":24}by ThreadSanitizer')
    for name, (races, theirs) in table.items():
        print(f'{name:28}{" ".join(sorted(races)) or "none":24}{"; or ".join(sorted(theirs))}'[:160])
