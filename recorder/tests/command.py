"""Tests the command record: what it prints, its status, the files that it leaves, and the ways to link."""
import glob
import os
import re
import shutil
import signal
import subprocess
import time

import room
from room import RECORD, run

HERE = os.path.dirname(os.path.realpath(__file__))
HIDDEN = os.path.join(room.TOP, 'examples/hidden_race.cpp')
COMPILERS = []
LINE = re.compile(r'recorder: (\d+) events? of (\d+) threads? on (\d+) variables? and (\d+) locks? in (\S+), '
                  r'(\d+) bytes$', re.M)


def builds(shown):
    """Builds the library where it is not there, and a copy by each compiler, which may not warn."""
    done = run(['make', '-s', '-C', room.RECORDER])
    if not shown.tell('make -C recorder', done.returncode == 0, done.stderr):
        return False
    for compiler in room.COMPILERS:
        if not room.has(compiler):
            continue
        copy = os.path.join(shown.room, 'made_by_' + compiler)
        shutil.copytree(room.RECORDER, copy, ignore=shutil.ignore_patterns('lib', 'tests', '__pycache__'))
        done = run(['make', '-s', '-C', copy, f'CC={compiler}'])
        is_made = done.returncode == 0 and not done.stderr
        shown.tell(f'make -C recorder by {compiler}, without warnings', is_made, done.stderr)
    return True


def ordinary(shown):
    """The compilers of C and C++ that link the sanitizer's library as a shared one, or the wrappers."""
    wrappers = (room.RECORDER + '/cc', room.RECORDER + '/c++')
    for pair in (('gcc', 'g++'), ('clang -shared-libsan', 'clang++ -shared-libsan'), wrappers):
        if all(map(room.links, pair)):
            return pair
    shown.skip("the command record (ThreadSanitizer's library is not there)")
    return None


def build(folder, source, *options, name='app', compiler=None):
    """A program of tests/, or of this text, built in the folder; what the compiler says if it fails."""
    if not compiler:
        compiler = COMPILERS[source.endswith('.cpp')] if '-fsanitize=thread' in options else 'cc'
    if '\n' in source:
        path = os.path.join(folder, name + '.c')
        room.write(path, source)
    else:
        path = source if os.path.isabs(source) else os.path.join(HERE, source)
    app = os.path.join(folder, name)
    words = compiler.split() + ['-g', '-O1', '-w', '-pthread', path, '-o', app, *options]
    done = run(words)
    return app, done.stderr[-300:] if done.returncode else ''


def is_linked(shown, folder, what, *options, compiler='gcc'):
    """Whether this way to link is there; else it is skipped."""
    if room.has(compiler.split()[0]):
        if not build(folder, 'int main(void) { return 0; }\n', *options, name='tried', compiler=compiler)[1]:
            return True
    shown.skip(what)
    return False


def show_line(shown, folder):
    """The line of counts is that of the trace, and the program's output and status are its own."""
    sleep = os.path.join(HERE, 'sleep_until_alone.cpp')
    app, error = build(folder, HIDDEN, '-fsanitize=thread', sleep)
    trace = os.path.join(folder, 'trace.txt')
    done = run([*RECORD, app], cwd=folder)
    shown.tell('hidden_race builds and runs', not error and done.returncode == 0, error or done)
    shown.tell('the output is the program\'s', done.stdout == '3 orders\n', done.stdout)
    line = LINE.fullmatch(done.stderr.strip())
    if not shown.tell('one line of counts', line and line[5] == 'trace.txt', done.stderr):
        return
    refused, report = shown.judge(trace)
    counts = re.findall(r'\d+', report[0]) if report else refused
    told = [line[number] for number in (1, 2, 4, 3)]
    shown.tell('the counts are those of wcp', told == counts[:4], (line.groups(), counts))
    shown.tell('the bytes are those of the file', int(line[6]) == os.path.getsize(trace), line[6])
    shown.tell('one race', len(report) == 2, report)
    places = re.findall(r'\|app\+(0x[0-9a-f]+)', report[1] if len(report) > 1 else '')
    if room.has('addr2line'):
        lines = run(['addr2line', '-e', app, *places]).stdout
        shown.tell('its two lines', re.findall(r':(\d+)', lines) == ['30', '19'], (places, lines))
    else:
        shown.skip('the two lines of hidden_race.cpp (addr2line)')
    info = room.read(trace + '.info').splitlines()
    words = [line.split('\t')[0] for line in info]
    for word in ('process', 'file', 'thread', 'end'):
        shown.tell(f'a line {word} in trace.txt.info', word in words, info[:3])
    shown.tell('the first line of trace.txt.info', info and info[0] == 'wcp-info\t1', info[:1])
    show_variables(shown, folder, app, report)


def show_variables(shown, folder, app, report):
    """WCP_ALL keeps all, WCP_STACKS=0 leaves out stacks; the races have the same places."""
    def places(lines):
        return sorted(re.findall(r'\|(app\+0x[0-9a-f]+)(?:#\d+)?(?= with|$)', '\n'.join(lines[1:])))
    for setting in ('WCP_ALL=1', 'WCP_STACKS=0'):
        name, value = setting.split('=')
        done = run([*RECORD, '-o', 'other.txt', app], cwd=folder, env=dict(os.environ, **{name: value}))
        refused, other = shown.judge(os.path.join(folder, 'other.txt'))
        same = other and places(other) == places(report) and places(report)
        shown.tell(f'{setting}: the same places race', same, (refused, other, done.stderr))
        if name == 'WCP_STACKS':
            has_stacks = '#' in room.read(os.path.join(folder, 'other.txt'))
            shown.tell('WCP_STACKS=0: no numbers of stacks', not has_stacks)
        else:
            events = [int(lines[0].split()[1]) if lines else 0 for lines in (report, other)]
            shown.tell('WCP_ALL=1: more events', events[1] > events[0], events)
    done = run([app], cwd=folder, env=dict(os.environ, LD_LIBRARY_PATH=room.LIBRARIES))
    shown.tell('without WCP_TRACE as ever', (done.stdout, done.returncode) == ('3 orders\n', 0), done)


def show_refusals(shown, folder):
    """Where nothing is recorded, a line says why."""
    main = 'int main(void) { return 0; }\n'
    room.write(os.path.join(folder, 'script'), 'not a binary\n')

    def refused(what, words, status, said):
        done = run([*RECORD, *words], cwd=folder)
        is_so = done.returncode == status and said in done.stderr and done.stderr.startswith('recorder: ')
        return shown.tell(what, is_so, (done.returncode, done.stderr))

    room.write(os.path.join(folder, 'trace.txt'), 'T0|w(x)|of an earlier run\n')
    refused('not instrumented', [build(folder, main)[0]], 125, 'not instrumented')
    left = os.path.exists(os.path.join(folder, 'trace.txt'))
    shown.tell('the trace of an earlier run is gone', not left)
    refused('no program', ['./none'], 127, 'No such file')
    refused('no program on the path', ['none-of-this-name'], 127, 'No such file')
    refused('a file that is no program', ['./script'], 126, 'Permission denied')
    refused('a shell that starts nothing instrumented', ['sh', '-c', 'exit 3'], 125, 'nothing was recorded')
    refused('no words', [], 125, 'no program')
    refused('an unknown option', ['-x', 'true'], 125, 'no such option')
    app, error = build(folder, main, '-fsanitize=thread', name='sanitized')
    shown.tell('a small program builds', not error, error)
    refused('a folder that is not there', ['-o', 'none/trace.txt', app], 125, 'there is no folder none')
    refused('a device that takes nothing', ['-o', '/dev/full', build(
        folder, 'exit_by_exit.c', '-fsanitize=thread', name='racing')[0]], 125, '/dev/full')
    if is_linked(shown, folder, 'gcc -static-libtsan', '-fsanitize=thread', '-static-libtsan'):
        static = build(folder, main, '-fsanitize=thread', '-static-libtsan', name='static')[0]
        refused('a static runtime of gcc', [static], 125, 'statically')
    if is_linked(shown, folder, 'clang, its static runtime', '-fsanitize=thread', compiler='clang'):
        static = build(folder, main, '-fsanitize=thread', name='static2', compiler='clang')[0]
        refused('a static runtime of clang', [static], 125, 'statically')
    done = run([*RECORD, '--help'])
    shown.tell('--help', done.returncode == 0 and 'usage: recorder/record' in done.stdout, done)


WAITS = '''#include <pthread.h>
#include <signal.h>
#include <unistd.h>
static volatile int racy;
static void *work(void *unused) { racy++; return unused; }
static void end(int number) { _exit(number); }
int main(void)
{
    pthread_t thread;
    signal(SIGTERM, end);
    signal(SIGUSR1, end);
    pthread_create(&thread, NULL, work, NULL);
    racy++;
    pthread_join(thread, NULL);
    if (write(1, "ready", 5) < 0)
        return 1;
    for (;;)
        pause();
}
'''


def heed_signals():
    """A shell's job in the background is started with SIGINT ignored, and so are its children."""
    for number in (signal.SIGTERM, signal.SIGUSR1, signal.SIGINT):
        signal.signal(number, signal.SIG_DFL)


def show_signals(shown, folder):
    """Signals to record reach the program; a program that is killed leaves no trace, and says so."""
    app, error = build(folder, WAITS, '-fsanitize=thread')
    shown.tell('a program that waits builds', not error, error)
    for number, status in ((signal.SIGTERM, 15), (signal.SIGUSR1, 10), (signal.SIGINT, 130)):
        child = subprocess.Popen([*RECORD, '-o', 'signal.txt', app], cwd=folder, stdout=subprocess.PIPE,
                                 stderr=subprocess.PIPE, preexec_fn=heed_signals)
        child.stdout.read(5)
        child.send_signal(number)
        said = child.communicate(timeout=room.LIMIT)[1].decode()
        shown.tell(f'{number.name}: the status', child.returncode == status, (child.returncode, said))
        refused, report = shown.judge(os.path.join(folder, 'signal.txt'))
        shown.tell(f'{number.name}: the race', len(report) > 1, (refused, said))
    kills = f'{app} > ready & while [ ! -s ready ]; do sleep 0.1; done; kill -KILL $!; wait $!'
    done = run([*RECORD, '-o', 'killed.txt', 'sh', '-c', kills], cwd=folder)
    left = [path for path in glob.glob(os.path.join(folder, 'killed.txt*')) if '.part' not in path]
    is_so = done.returncode == 125 and 'killed' in done.stderr and not left
    shown.tell('a process that is killed', is_so, (done.returncode, done.stderr, left))


FILLS = '''#include <pthread.h>
#include <stdio.h>
static pthread_mutex_t mutex = PTHREAD_MUTEX_INITIALIZER;
static long counter;
static void *work(void *unused)
{
    for (int i = 0; i < 2000000; i++) {
        pthread_mutex_lock(&mutex);
        counter++;
        pthread_mutex_unlock(&mutex);
    }
    return unused;
}
int main(void)
{
    pthread_t thread;
    pthread_create(&thread, NULL, work, NULL);
    work(NULL);
    pthread_join(thread, NULL);
    printf("%ld\\n", counter);
}
'''


def show_memory(shown, folder):
    """Where memory is full the program goes on, and a line says that the trace is not whole."""
    app = build(folder, FILLS, '-fsanitize=thread')[0]
    limited = ['sh', '-c', 'ulimit -v 400000; exec "$@"', 'sh', *RECORD, '-o', 'full.txt', app]
    done = run(limited, cwd=folder)
    told = done.returncode == 125 and 'memory is full' in done.stderr
    shown.tell('memory is full: it is told', told, (done.returncode, done.stderr))
    shown.tell('memory is full: the program goes on', done.stdout == '4000000\n', done.stdout)
    trace = os.path.join(folder, 'full.txt')
    refused = shown.judge(trace)[0] if os.path.exists(trace) else ''
    shown.tell('memory is full: no half trace', not refused, refused)


def show_files(shown, folder):
    """Pipes, devices, %p, and processes with files of their own."""
    app = build(folder, 'exit_by_exit.c', '-fsanitize=thread')[0]

    def judged(what, path):
        refused, report = shown.judge(path)
        shown.tell(what, len(report) > 1, refused or report)

    fifo = os.path.join(folder, 'fifo')
    os.mkfifo(fifo)
    with open(os.path.join(folder, 'from_fifo'), 'wb') as taken:
        reader = subprocess.Popen(['cat', fifo], stdout=taken)
        done = run([*RECORD, '-o', fifo, app], cwd=folder)
        try:
            reader.wait(timeout=room.LIMIT)
        except subprocess.TimeoutExpired:
            reader.kill()
    shown.tell('a FIFO: the status', done.returncode == 3, (done.returncode, done.stderr))
    judged('a FIFO: the trace', os.path.join(folder, 'from_fifo'))
    with open(os.path.join(folder, 'from_pipe'), 'wb') as taken:
        first = subprocess.Popen([*RECORD, '-o', '/dev/stdout', app], cwd=folder, stdout=subprocess.PIPE,
                                 stderr=subprocess.DEVNULL)
        subprocess.run(['cat'], stdin=first.stdout, stdout=taken)
        first.wait()
    judged('-o /dev/stdout', os.path.join(folder, 'from_pipe'))
    done = run([*RECORD, '-o', 'by%p.txt', app], cwd=folder)
    found = [path for path in glob.glob(os.path.join(folder, 'by*.txt')) if re.search(r'by\d+\.txt$', path)]
    if shown.tell('%p in the name', len(found) == 1, (found, done.stderr)):
        judged('%p: the trace', found[0])
    done = run([*RECORD, '-o', 'elsewhere.txt', 'sh', '-c', f'cd / && {app}'], cwd=folder)
    shown.tell('in another folder: the status', done.returncode == 3, (done.returncode, done.stderr))
    judged('in another folder: the trace', os.path.join(folder, 'elsewhere.txt'))
    done = run([*RECORD, '-o', 'suite.txt', 'sh', '-c', f'{app}; {app}; exit 7'], cwd=folder)
    found = glob.glob(os.path.join(folder, 'suite.txt*'))
    found = [path for path in found if not path.endswith('.info')]
    is_so = len(found) == 2 and done.returncode == 7 and len(LINE.findall(done.stderr)) == 2
    shown.tell('two processes of a shell', is_so, (found, done.returncode, done.stderr))
    shown.tell('and their sum', ' events of 2 processes, ' in done.stderr, done.stderr)
    for path in found:
        judged(os.path.basename(path), path)
    children = build(folder, 'children.c', '-fsanitize=thread', name='children')[0]
    done = run([*RECORD, '-o', 'children.txt', children], cwd=folder)
    shown.tell('a line for each child', len(LINE.findall(done.stderr)) == 4, done.stderr)


def show_links(shown, folder):
    """The recorder linked in place of the runtime: statically by gcc, and by cc and c++."""
    lib = room.LIBRARIES
    ways = [('gcc -static-libtsan -L recorder/lib', 'gcc',
             ['-fsanitize=thread', '-static-libtsan', f'-L{lib}']),
            ('recorder/cc', room.RECORDER + '/cc', []), ('recorder/c++', room.RECORDER + '/c++', [])]
    for compiler, plus in room.COMPILERS.values():
        ways += [(f'recorder/cc by {compiler}', f'env WCP_CC={compiler} {room.RECORDER}/cc', []),
                 (f'recorder/c++ by {plus}', f'env WCP_CXX={plus} {room.RECORDER}/c++', [])]
    for number, (what, compiler, options) in enumerate(ways):
        tool = re.search(r'=(\S+)', compiler)
        tool = tool[1] if tool else 'c++' if '++' in what else 'cc' if 'cc' in what[-2:] else 'gcc'
        if not room.has(tool) or 'clang' not in tool and not room.links(tool):
            shown.skip(f'{what} ({tool}, or its library)')
            continue
        source = HIDDEN if '++' in what else 'exit_by_exit.c'
        app, error = build(folder, source, *options, name=f'app{number}', compiler=compiler)
        for words, env in (([*RECORD, '-o', 'linked.txt', app], None),
                           ([app], dict(os.environ, WCP_TRACE='linked.txt'))):
            if os.path.exists(os.path.join(folder, 'linked.txt')):
                os.unlink(os.path.join(folder, 'linked.txt'))
            done = run(words, cwd=folder, env=env)
            trace = os.path.join(folder, 'linked.txt')
            refused, report = shown.judge(trace) if os.path.exists(trace) else ('no trace', [])
            shown.tell(f'{what}{" by itself" * bool(env)}', len(report) > 1, error or (refused, done.stderr))


def show(shown):
    COMPILERS[:] = ordinary(shown) or ()
    if not COMPILERS:
        return
    for part in (show_line, show_refusals, show_signals, show_memory, show_files, show_links):
        begun = time.monotonic()
        part(shown, shown.folder(part.__name__))
        print(f'{part.__name__}: {time.monotonic() - begun:.0f} s', flush=True)
