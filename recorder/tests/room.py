"""What the recorder's tests share: the places, the counts, and how a program is built, run and judged."""
import os
import re
import shutil
import subprocess
import sys
import tempfile
import threading

RECORDER = os.path.dirname(os.path.dirname(os.path.realpath(__file__)))
TOP = os.path.dirname(RECORDER)
LIBRARIES = os.path.join(RECORDER, 'lib')
RECORD = [sys.executable, os.path.join(RECORDER, 'record')]
# Seconds after which a command hangs: many times what a slow, busy machine takes for any.
LIMIT = 3600
COMPILERS = {'gcc': ('gcc', 'g++'), 'clang': ('clang', 'clang++')}


class Shown:
    """The program wcp, a folder to work in, and how much was as it has to be."""

    def __init__(self, program, room):
        self.program, self.room = program, room
        self.passed = self.failed = 0
        self.skipped, self.lock = [], threading.Lock()

    def tell(self, what, is_so, got=''):
        with self.lock:
            self.passed += bool(is_so)
            self.failed += not is_so
            if not is_so:
                print(f'not so: {what}: {got}'.rstrip(': '), flush=True)
        return bool(is_so)

    def skip(self, what):
        with self.lock:
            self.skipped.append(what)

    def folder(self, name):
        path = os.path.join(self.room, re.sub(r'\W+', '_', name))
        os.makedirs(path)
        return path

    def judge(self, trace):
        """What `wcp` has of a trace: why it refuses it, or the report's lines, the counts first."""
        for command in ('check', 'replay'):
            with open(trace, 'rb') as given:
                done = run([self.program, command, '--threads', '1024'], stdin=given)
            if done.returncode not in (0, 1):
                return f'wcp {command}: {done.stdout or done.stderr}'.strip(), []
        return '', done.stdout.splitlines()


def run(words, timeout=LIMIT, **how):
    """Runs a command to its end, with its output as text. One that takes too long has status 124, one that is
    not there 127."""
    how = {'stdin': subprocess.DEVNULL, 'stdout': subprocess.PIPE, 'stderr': subprocess.PIPE, **how}
    try:
        return subprocess.run(words, timeout=timeout, errors='backslashreplace', **how)
    except subprocess.TimeoutExpired:
        return subprocess.CompletedProcess(words, 124, '', f'still running after {timeout} s')
    except FileNotFoundError as error:
        return subprocess.CompletedProcess(words, 127, '', str(error))


def read(path):
    with open(path, errors='backslashreplace') as f:
        return f.read()


def write(path, text):
    with open(path, 'w') as f:
        f.write(text)


def symbols(path):
    """The variables of a binary: address, length and name, lowest first."""
    found = []
    for line in run(['nm', '-nSC', path]).stdout.splitlines():
        words = line.split(None, 3)
        if len(words) == 4 and words[2] in 'bBdDuVvrR':
            found.append((int(words[0], 16), int(words[1], 16), words[3]))
    return found


def variables(report, tables):
    """The names of the variables that race: of a global its symbol, and else heap, stack or other."""
    names = set()
    for line in report[1:]:
        variable = re.match(r'\d+\|[^|]*\|[rw]\(([^|]*)\)\|', line)[1]
        in_file = re.match(r'(.+?)\+0x([0-9a-f]+)', variable)
        if re.match(r'heap\d', variable):
            names.add('heap')
        elif re.match(r'stack\d', variable):
            names.add('stack')
        elif in_file and in_file[1] in tables:
            place = int(in_file[2], 16)
            names.update([re.sub(r'.*::|\.\d+$', '', name) for address, size, name in tables[in_file[1]]
                          if address <= place < address + size][-1:] or [variable])
        else:
            names.add('other')
    return names


def has(*tools):
    return all(map(shutil.which, tools))


def links(compiler):
    """Whether the compiler, with its options, links a program with the sanitizer's library."""
    with tempfile.TemporaryDirectory() as folder:
        source = os.path.join(folder, 'tried.cpp' if '++' in compiler else 'tried.c')
        write(source, 'int main(void) { return 0; }\n')
        return run([*compiler.split(), '-fsanitize=thread', source, '-o', source + '.out']).returncode == 0
