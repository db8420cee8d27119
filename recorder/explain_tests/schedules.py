"""What is said of schedules: at which entries, in which order, and that the commands print them."""
import json
import os
import re
import shlex

import room
from traces import explain

# At `x` and `z` the fork inside a section makes races without a schedule; `y` has one.
FORKED = ('T0|acq(l)|1', 'T0|fork(T1)|2', 'T0|w(x)|3', 'T0|w(z)|4', 'T0|rel(l)|5', 'T1|acq(l)|6',
          'T1|rel(l)|7', 'T1|w(x)|8', 'T0|w(y)|9', 'T1|r(y)|10', 'T1|w(z)|11')
# The same places race again, outside of the section.
AGAIN = ('T0|w(v)|3', 'T1|w(v)|8')
# The places of `y` and of `x`, which has no schedule, differ by their stacks alone.
STACKS = ('T0|acq(l)|1', 'T0|fork(T1)|2', 'T0|w(x)|a+0x1#1', 'T0|rel(l)|4', 'T1|acq(l)|5', 'T1|rel(l)|6',
          'T0|w(y)|a+0x1#2', 'T1|w(y)|a+0x2#2', 'T1|w(x)|a+0x2#1')
COMMAND = re.compile(r'^  a schedule shows .*: wcp (witness .*)$', re.M)
FOUND, NONE = 'a schedule shows', 'no schedule was found'


def printed(shown, text, folder):
    """What the commands print that a text of entries names: the lines of each."""
    return [room.run(['sh', '-c', f'{shlex.quote(shown.program)} {words}'], cwd=folder).stdout.splitlines()
            for words in COMMAND.findall(text)]


def write(folder, name, lines):
    room.write(os.path.join(folder, name), ''.join(f'{line}\n' for line in lines))


def show_order(shown, folder):
    """Entries with a schedule come first; each comes after an entry above whose race is earlier."""
    write(folder, 'two words', FORKED)
    done = explain(shown, ['two words'], cwd=folder)
    shown.tell('schedules: the entries', re.findall(r': `(\w)`', done.stdout) == ['y', 'x', 'z'] and
               done.stdout.count(FOUND) == 1 and done.stdout.count(NONE) == 2, done.stdout)
    shown.tell('schedules: the command', [lines[-2:] for lines in printed(shown, done.stdout, folder)] ==
               [['T0|w(y)|9', 'T1|r(y)|10']], done.stdout)
    done = explain(shown, ['--json', 'two words'], cwd=folder)
    entries = [json.loads(line) for line in done.stdout.splitlines()]
    shown.tell('schedules: in JSON', [(entry['after'], entry['schedule']) for entry in entries] == [
        (None, {'event': 10, 'command': "wcp witness 10 < 'two words'"}),
        (None, {'event': None, 'command': None}), (1, {'event': None, 'command': None})], entries)


def show_others(shown, folder):
    """A later race of the places has the schedule, or one by other stacks, or one of a later run."""
    write(folder, 'again', FORKED + AGAIN)
    done = explain(shown, ['again'], cwd=folder)
    shown.tell('schedules: of another race',
               'shows another race of these places: wcp witness 13 <' in done.stdout and
               printed(shown, done.stdout, folder)[0][-2:] == list(AGAIN), done.stdout)
    for event, lines in ((8, STACKS), (9, STACKS[:6] + STACKS[8:] + STACKS[6:8])):
        write(folder, 'stacks', lines)
        done = explain(shown, ['stacks'], cwd=folder)
        shown.tell(f'schedules: of other stacks, event {event}', 'race 1 of 1' in done.stdout and
                   COMMAND.findall(done.stdout) == [f'witness {event} < stacks'], done.stdout)
    write(folder, 'first', FORKED[:8])
    write(folder, 'second', AGAIN)
    done = explain(shown, ['first', 'second'], cwd=folder)
    shown.tell('schedules: of a later run', COMMAND.findall(done.stdout) == ['witness 2 < second'] and
               printed(shown, done.stdout, folder) == [list(AGAIN)] and NONE not in done.stdout, done.stdout)


def show_threads(shown, folder):
    """The command allows for as many threads as the trace needs."""
    write(folder, 'many', [f'T0|fork(T{n})|1' for n in range(1, 200)] + ['T1|w(x)|2', 'T2|w(x)|3'])
    done = explain(shown, ['many'], cwd=folder)
    shown.tell('schedules: 200 threads',
               COMMAND.findall(done.stdout) == ['witness 201 --threads 200 < many'] and
               printed(shown, done.stdout, folder)[0][-2:] == ['T1|w(x)|2', 'T2|w(x)|3'], done.stdout)


def show_silence(shown, folder):
    """Where none was looked for, or the search failed, the entries say nothing of schedules."""
    report = room.run([shown.program, 'replay'], stdin=open(os.path.join(folder, 'again'))).stdout
    room.write(os.path.join(folder, 'report'), report)
    done = explain(shown, ['--report', 'report', 'again'], cwd=folder)
    is_silent = FOUND not in done.stdout and NONE not in done.stdout
    shown.tell('schedules: --report', is_silent and '3 races' in done.stdout and done.returncode == 1, done)
    failing = os.path.join(folder, 'failing')
    room.write(failing, f'#!/bin/sh\n[ "$1" = witness ] && exit 5\nexec {shlex.quote(shown.program)} "$@"\n')
    os.chmod(failing, 0o755)
    again = explain(shown, ['--wcp', failing, 'again'], cwd=folder)
    shown.tell('schedules: the search fails', again.stdout == done.stdout and again.returncode == 1 and
               'wcp witness ended with status 5 on again' in again.stderr, again)


def show(shown):
    folder = shown.folder('schedules')
    for part in (show_order, show_others, show_threads, show_silence):
        part(shown, folder)
