"""Explains traces that are written here: of another tool, with hostile names, refused ones, and with options
and files that are wrong."""
import glob
import json
import os
import pty
import re
import subprocess
import sys

import room

EXPLAIN = [sys.executable, os.path.join(room.RECORDER, 'explain')]
HOSTILE = ('T0|fork(T1)|a\n'
           'T0|w(x\x1b[31m)|place\x1b]0;title\x07\n'
           'T1\x1b|w(\u202ey)|b\n'
           'T1|r(x\x1b[31m)|c\u202e\xff\n')
SCHEDULE = re.compile(r'^  (a schedule shows|no schedule was found).*\n', re.M)


def explain(shown, words, **how):
    return room.run([*EXPLAIN, '--wcp', shown.program, *words], **how)


def pairs_of(report):
    """How many distinct pairs of locations a report has, counted as the manual's recipe did."""
    pairs = set()
    for line in report.splitlines()[1:]:
        fields = line.split('|')
        pairs.add(tuple(sorted((fields[3].rsplit(' with ', 1)[0], fields[6]))))
    return len(pairs)


def show_examples(shown):
    """The traces of examples/: the entries of another tool's trace have its places as they are."""
    for trace in sorted(glob.glob(os.path.join(room.TOP, 'examples/*.txt'))):
        name = os.path.basename(trace)[:-4]
        report = os.path.join(room.TOP, f'examples/{name}.report')
        done = explain(shown, [f'{name}.txt'], cwd=os.path.dirname(trace))
        golden = os.path.join(room.RECORDER, 'explain_tests', f'{name}.golden')
        shown.tell(f'{name}: its entries', done.stdout == room.read(golden), done.stdout)
        races = pairs_of(room.read(report))
        shown.tell(f'{name}: an entry for each pair',
                   done.stdout.count('\nrace ') + done.stdout.startswith('race ') == races)
        shown.tell(f'{name}: status', done.returncode == (races > 0), done.returncode)
        again = explain(shown, ['--report', report, trace])
        shown.tell(f'{name}: by --report', again.stdout == SCHEDULE.sub('', done.stdout), again)


def show_hostile(shown):
    """No byte that steers a terminal is printed, from the trace or from what is beside it."""
    trace = os.path.join(shown.room, 'hostile.txt')
    with open(trace, 'wb') as file:
        file.write(HOSTILE.encode('latin-1', 'backslashreplace').replace(b'\\u202e', '\u202e'.encode()))
    with open(trace + '.info', 'wb') as file:
        file.write(b'wcp-info\t1\nthread\tT1\tna\x1b[2Jme\\n\tfoo+0x1\tT0\tbar\x1b+0x2\t0\nnone\nstack\tx\n')
    done = explain(shown, [trace])
    text = done.stdout + done.stderr
    shown.tell('hostile names: one race', 'race 1 of 1' in text and done.returncode == 1, done)
    is_safe = all(c == '\n' or c.isprintable() for c in text)
    shown.tell('hostile names: no control characters', is_safe, [text])
    for wanted in ('x\\x1b[31m', '\\xe2\\x80\\xae', 'na\\x1b[2Jme\\x0a', '\\xff'):
        shown.tell(f'hostile names: {wanted} is printed', wanted in text, text)
    done = explain(shown, ['--json', trace])
    shown.tell('hostile names: JSON', json.loads(done.stdout)['first']['variable'] == 'x\x1b[31m', done)


def show_forms(shown):
    """Empty lines, CR LF and a last line without its end are read as wcp reads them."""
    lines = ['T0|w(x)|1', 'T0|acq(l)|2', 'T0|rel(l)|3', 'T1|acq(l)|4', 'T1|rel(l)|5', 'T1|r(x)|6']
    wanted = None
    for name, text in (('plain', '\n'.join(lines) + '\n'), ('no end', '\n'.join(lines)),
                       ('CR LF', '\r\n'.join(lines)),
                       ('empty lines', '\n\n' + '\r\n\n\n'.join(lines) + '\n\n')):
        trace = os.path.join(shown.room, 'forms.txt')
        with open(trace, 'w', newline='') as file:
            file.write(text)
        done = explain(shown, [trace])
        wanted = wanted or done.stdout
        shown.tell(f'{name}: the entry', done.stdout == wanted and 'event 6' in wanted, done)


def show_statuses(shown):
    """What fails has its own status, and never that of a race."""
    folder = shown.folder('statuses')
    race, none, bad, empty = (os.path.join(folder, name) for name in ('race', 'none', 'bad', 'empty'))
    room.write(race, 'T0|w(x)|1\nT1|r(x)|2\n')
    room.write(none, 'T0|w(x)|1\nT1|r(y)|2\n')
    room.write(bad, 'T0|w(x)|1\nT0|rel(l)|2\n')
    room.write(empty, '')
    room.write(race + '.suppressions', 'deadlock:x\nrase:y\n')
    for words, status, said in (
            ([race], 1, '1 race'), ([none], 0, 'no races'), ([bad], 3, 'line 2: NotHolder'),
            ([empty], 0, 'nothing was recorded'), ([os.path.join(folder, 'absent')], 4, 'No such file'),
            ([folder], 4, ''), ([], 2, 'usage'), (['--nothing', race], 2, 'usage'),
            (['--threads', '1', race], 3, 'line 2: TooManyNames'),
            (['--wcp', '/nowhere', race], 126, 'no program'),
            (['--report', none, race], 4, ''), (['--first', '0', race], 1, '1 race, the first 0 printed'),
            (['--suppressions', race + '.suppressions', race], 2, 'suppressions:2'),
            (['--known', os.path.join(folder, 'absent'), race], 4, 'No such file')):
        done = explain(shown, words)
        shown.tell(f'status of {" ".join(map(os.path.basename, words))}',
                   done.returncode == status and said in done.stdout + done.stderr, done)
    done = explain(shown, [bad])
    shown.tell('a refused trace has no count of races', done.stdout == 'line 2: NotHolder\n', done)
    done = explain(shown, [race, bad])
    wanted = '\n1 race in 2 runs, 1 trace without a report\n'
    shown.tell('a refused trace beside another', wanted in done.stdout, done)
    report = os.path.join(folder, 'report')
    room.write(report, 'events 2 threads 2 locks 0 variables 1 races 1\n2|T1|r(x)|2 with 1|T0|w(x)|1\n')
    done = explain(shown, ['--report', report, none])
    shown.tell('a report of another trace', done.returncode == 2 and 'not of' in done.stderr, done)
    many = os.path.join(folder, 'many')
    room.write(many, ''.join(f'T0|fork(T{n})|1\n' for n in range(1, 200)) + 'T1|w(x)|2\nT2|w(x)|3\n')
    shown.tell('200 threads', explain(shown, [many]).returncode == 1)


def show_terminal(shown):
    """Colors on a terminal, unless NO_COLOR is set; a bar where the work is long, and none elsewhere."""
    trace = os.path.join(shown.room, 'statuses/race')
    for words, env, wanted in (([], {}, True), ([], {'NO_COLOR': '1'}, False),
                               (['--color', 'never'], {}, False),
                               (['--color', 'always'], {'NO_COLOR': '1'}, True)):
        text = on_terminal([*EXPLAIN, '--wcp', shown.program, *words, trace], dict(os.environ, **env))
        shown.tell(f'colors: {words} {env}', (b'\x1b[1;31mrace 1' in text) == wanted, text)
    slow = os.path.join(shown.room, 'slow')
    room.write(slow, f'#!/bin/sh\nsleep 1.5\nexec {shown.program} "$@"\n')
    os.chmod(slow, 0o755)
    long = os.path.join(shown.room, 'long')
    room.write(long, 'T0|w(a_variable_with_a_long_name)|1\n' * 120000)
    text = on_terminal([*EXPLAIN, '--wcp', slow, long], dict(os.environ))
    shown.tell('a bar on a terminal', b'MB, 0.' in text and b's left' in text, text)
    done = room.run([*EXPLAIN, '--wcp', slow, '--color', 'auto', long])
    shown.tell('no bar elsewhere', done.stderr.count('\n') == 1 and 'left' not in done.stderr, done)


def on_terminal(words, env):
    """What a command writes where its output is a terminal."""
    ours, theirs = pty.openpty()
    run = subprocess.Popen(words, stdin=subprocess.DEVNULL, stdout=theirs, stderr=theirs, env=env)
    os.close(theirs)
    text = b''
    try:
        while piece := os.read(ours, 4096):
            text += piece
    except OSError:
        pass
    os.close(ours)
    run.wait()
    return text


def show(shown):
    for part in (show_examples, show_hostile, show_forms, show_statuses, show_terminal):
        part(shown)
