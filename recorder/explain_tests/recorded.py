"""Explains recorded runs of the programs of this folder, built by gcc and clang: their entries, as text and
as JSON; suppressions; known races after an edit; and what is said of a file that is missing or another build.
"""
import glob
import io
import json
import os
import re
import shutil
import sys

import room
from explaining.elf import build_id
from explaining.printing import Printer, print_text
from schedules import printed
from traces import EXPLAIN, explain

HERE = os.path.dirname(os.path.realpath(__file__))
TEST = [sys.executable, os.path.join(room.RECORDER, 'test')]
PROGRAMS = sorted(os.path.basename(path) for end in ('c', 'cpp') for path in glob.glob(f'{HERE}/*.{end}'))


def settled(text):
    """Entries without what differs from build to build: numbers of events, offsets, how lines are filled,
    the declarations that `nm` does not find in clang's files, and the parentheses that gcc's have not."""
    text = re.sub(r'\s+', ' ', text.replace('\n\n', '\r')).replace('\r', '\n\n').strip()
    for pattern, word in ((r'(event|witness) \d+', r'\1 N'), (r'0x[0-9a-f]+', '0x..'),
                          (r' bytes, \S+:\d+\)', ' bytes)'), (r'\(\)', '')):
        text = re.sub(pattern, word, text)
    return text


class Build:
    """A folder with a program of this folder, which a compiler builds as `app` and `record` records."""

    def __init__(self, shown, compiler, source, folder=None):
        self.shown, self.compiler, self.source = shown, compiler, source
        self.folder = folder or shown.folder(f'{compiler} {source}')
        shutil.copy(os.path.join(HERE, source), self.folder)
        shutil.copy(os.path.join(HERE, 'turns.h'), self.folder)

    def run(self, words):
        return room.run(words, cwd=self.folder)

    def build(self):
        which = self.source.endswith('.cpp')
        env = dict(os.environ, **{('WCP_CC', 'WCP_CXX')[which]: room.COMPILERS[self.compiler][which]})
        done = room.run([os.path.join(room.RECORDER, ('cc', 'c++')[which]), '-g', '-O1', '-w', '-pthread',
                         self.source, '-o', 'app'], cwd=self.folder, env=env)
        return self.shown.tell(f'{self.compiler} builds {self.source}', done.returncode == 0, done)

    def record(self):
        done = self.run([*room.RECORD, '-o', 'trace.txt', './app'])
        return self.shown.tell(f'{self.compiler}, {self.source}: a recorded run', done.returncode == 0, done)

    def explain(self, *words):
        return explain(self.shown, [*words, 'trace.txt'], cwd=self.folder)

    def tell(self, what, is_so, got=''):
        self.shown.tell(f'{self.compiler}, {self.source}: {what}', is_so, got)


def show_entries(shown, compiler):
    """The entries of each program, offsets aside, are those of its golden file; and the same in JSON."""
    for source in PROGRAMS:
        made = Build(shown, compiler, source)
        if not made.build() or not made.record():
            continue
        done = made.explain()
        golden = os.path.join(HERE, f'{os.path.splitext(source)[0]}.golden')
        made.tell('its entries', settled(done.stdout) == settled(room.read(golden)), done.stdout)
        made.tell('nothing else is said', done.stderr == '' and done.returncode == 1, done)
        entries = [json.loads(line) for line in made.explain('--json').stdout.splitlines()]
        text, before = io.StringIO(), os.getcwd()
        os.chdir(made.folder)
        print_text(Printer(text, False), entries, len(entries))
        os.chdir(before)
        made.tell('JSON has the same', done.stdout.startswith(text.getvalue()) and entries, text.getvalue())


def show_suppressions(shown, compiler):
    """A pattern suppresses by function, file, or variable, as ThreadSanitizer's do."""
    made = Build(shown, compiler, 'heading.c', shown.folder(f'{compiler} suppressions'))
    if not made.build() or not made.record():
        return
    file = os.path.join(made.folder, 'suppressions')
    for lines, left in (('race:reset', 0), ('race:^reset$', 1), ('race:^rese$', 4), ('race:heading.c', 0),
                        ('race:set_*', 1), ('race:^other$', 3), ('race_top:resetting', 3),
                        ('race:resetting', 0),
                        ('race_top:set_y\n# race:*\n\ndeadlock:*', 3), ('race:x$\nrace:set_z', 2)):
        room.write(file, lines + '\n')
        done = made.explain('--suppressions', file)
        count = f', {4 - left} suppressed' if left < 4 else ''
        text = f'{left or "no"} race{"s" * (left != 1)}{count}\n'
        made.tell(f'suppressed by {lines!r}',
                  done.stdout.endswith(text) and done.returncode == (left > 0), done)
    done = made.explain('--first', '2')
    made.tell('the first two', done.stdout.count('\nrace ') == 2 and
              '4 races, the first 2 printed' in done.stdout, done)


def show_known(shown, compiler):
    """Known races stay known after an edit elsewhere in the file; a new one is not."""
    made = Build(shown, compiler, 'heading.c', shown.folder(f'{compiler} known'))
    if not made.build() or not made.record():
        return
    made.explain('--write-known', 'known')
    done = made.explain('--known', 'known')
    made.tell('known races', done.stdout == 'no races, 4 known\n' and done.returncode == 0, done)
    source = os.path.join(made.folder, made.source)
    text = room.read(source)
    edited = text.replace('int x,', 'int triple(int a)\n{\n    return a * 3;\n}\n\nint x,')
    room.write(source, edited.replace('    reset();\n', '    usleep(triple(1));\n    reset();\n'))
    if made.build() and made.record():
        done = made.explain('--known', 'known')
        made.tell('known after an edit', done.stdout == 'no races, 4 known\n' and done.returncode == 0, done)
    room.write(source, text.replace('    y = 1;', '    y = 2;'))
    if made.build() and made.record():
        done = made.explain('--known', 'known', '--write-known', 'both')
        made.tell('a new race', '1 race, 3 known' in done.stdout and 'y = 2;' in done.stdout and
                  done.returncode == 1, done)
        made.tell('both are known then', made.explain('--known', 'both').returncode == 0)


def show_missing(shown, compiler):
    """Without TRACE.info, without the binary, with another build of it: places stand as in the trace."""
    made = Build(shown, compiler, 'hidden.c', shown.folder(f'{compiler} missing'))
    if not made.build() or not made.record():
        return
    app, info = (os.path.join(made.folder, name) for name in ('app', 'trace.txt.info'))

    def unnamed(what, said):
        done = made.explain()
        made.tell(what, 'hidden.c' not in done.stdout and re.search(r' #0 app\+0x[0-9a-f]+', done.stdout) and
                  'hidden by the schedule: T1 released `app+0x' in done.stdout and
                  done.stderr.count(said) == 1 and done.returncode == 1, done)
    os.rename(app, app + '.away')
    unnamed('without the binary', 'app: ' + app + ' cannot be read (No such file or directory)')
    source = os.path.join(made.folder, made.source)
    text = room.read(source)
    room.write(source, '/* Another build. */\n' + text)
    made.build()
    room.write(source, text)
    has_build_id = build_id(app + '.away') is not None
    unnamed('another build', f'app: {app} ' + ('is another build than was recorded' if has_build_id else
                                               'has no build-id and is newer than the trace'))
    os.rename(app + '.away', app)
    made.tell('the build again', 'hidden.c' in made.explain().stdout)
    os.rename(source, source + '.away')
    done = made.explain()
    made.tell('without the source', 'hidden.c:' in done.stdout and 'announced = 3' not in done.stdout, done)
    os.rename(info, info + '.away')
    unnamed('without .info', 'there is no trace.txt.info')


def show_test(shown, compiler):
    """The one command for all: its entries, its statuses, several runs, and what it keeps."""
    made = Build(shown, compiler, 'hidden.c', shown.folder(f'{compiler} test'))
    if not made.build():
        return
    test = [*TEST, '--wcp', shown.program]
    done = made.run([*test, '-n', '3', '--keep', 'kept', './app'])
    made.tell('three runs', ', 3 events in 3 of 3 runs' in done.stdout and
              '1 race in 3 runs' in done.stdout and done.stderr.count('recorder: ') == 3 and
              done.returncode == 1, done)
    schedules = printed(shown, done.stdout, made.folder)
    made.tell('the schedule of a kept trace', len(schedules) == 1 and '|r(' in schedules[0][-1], done)
    made.tell('kept traces', sorted(os.listdir(os.path.join(made.folder, 'kept'))) == [
        f'run{run}.txt{end}' for run in (1, 2, 3) for end in ('', '.info')])
    done = made.run([*test, './app'])
    made.tell('the schedule of a trace that is gone',
              'a schedule shows it: keep the trace by --keep FOLDER' in done.stdout, done)
    room.write(os.path.join(made.folder, 'suppressions'), 'race:announced\n')
    suppressed = ['--suppressions', 'suppressions']
    made.tell('suppressed', made.run([*test, *suppressed, './app']).returncode == 0)
    done = made.run([*test, *suppressed, 'sh', '-c', './app; exit 7'])
    made.tell("the program's status", done.returncode == 7, done)
    done = made.run([*test, 'true'])
    made.tell('what is not instrumented', done.returncode == 125 and 'instrumented' in done.stderr, done)
    made.tell('no program', made.run([*test]).returncode == 2)
    made.tell('no wcp', made.run([*TEST, '--wcp', '/nowhere', './app']).returncode == 126)


def show_ci(shown):
    """The job of docs/CI.md fails on a new race, and on no known one."""
    folder = shown.folder('job')
    os.mkdir(os.path.join(folder, 'tests'))
    for name in ('hidden.c', 'turns.h'):
        shutil.copy(os.path.join(HERE, name), folder)
    os.symlink(room.RECORDER, os.path.join(folder, 'recorder'))
    room.write(os.path.join(folder, 'known.races'), '')
    room.write(os.path.join(folder, 'Makefile'), 'all:\n\t$(CC) $(CFLAGS) -pthread hidden.c -o '
               'tests/queue.test\nclean:\n\trm -f tests/*.test\n')
    page = room.read(os.path.join(room.TOP, 'docs/CI.md'))
    job, accept = (text.replace('recorder/test', f'recorder/test --wcp {shown.program}')
                   for text in re.findall(r'```sh\n(.*?)```', page, re.S)[:2])

    def tell(what, text, status, said):
        done = room.run(['sh', '-c', text], cwd=folder)
        shown.tell(f'docs/CI.md: {what}', done.returncode == status and said in done.stdout, done)
    tell('a new race', job, 1, 'in 3 of 3 runs')
    tell('it is accepted', accept, 1, '1 race')
    tell('a known race', job, 0, 'no races in 3 runs, 1 known')


def show(shown):
    if not room.has('make', 'nm', 'addr2line'):
        shown.skip('recorded runs (make, nm or addr2line is not there)')
        return
    done = room.run(['make', '-s', '-C', room.RECORDER])
    if not shown.tell('the recorder is built', done.returncode == 0, done):
        return
    for compiler, words in room.COMPILERS.items():
        if not room.has(*words):
            shown.skip(f'{compiler} (it is not there)')
            continue
        for part in (show_entries, show_suppressions, show_known, show_missing, show_test):
            part(shown, compiler)
    show_ci(shown)
