"""The command `explain`: its options, its order of work, and its exit status."""
import argparse
import os
import subprocess
import sys
import traceback

from .entries import Maker, OtherTrace
from .info import Info
from .known import key_of, read_known, write_known
from .naming import Naming
from .names import shown, text_of
from .printing import Printer, print_json, print_text
from .progress import Bar
from .replay import Refused, answer_of, find_program, pairs_of, races_of
from .schedules import command_of, is_shown, schedules_of
from .suppressions import BadSuppressions, read_suppressions
from .symbols import Symbols
from .trace import Trace

HERE = os.path.dirname(os.path.dirname(os.path.realpath(__file__)))
DEFAULT_THREADS = 64
RACE, USAGE, FAULT, MEMORY, MISTAKE, NO_PROGRAM = 1, 2, 4, 5, 125, 126

# The options: the word, what argparse is told of it, and its help.
OPTIONS = [
    ('--report', {'metavar': 'FILE'}, 'take this report of the trace, and do not run wcp'),
    ('--suppressions', {'metavar': 'FILE'}, "leave out races by lines race:PATTERN, in ThreadSanitizer's syntax"),
    ('--known', {'metavar': 'FILE'}, 'leave out the races of this file'),
    ('--write-known', {'metavar': 'FILE'}, 'write the races into this file, for --known'),
    ('--first', {'metavar': 'N', 'type': int}, 'print the first N races alone'),
    ('--json', {'action': 'store_true'}, 'print a race as one JSON object a line'),
    ('--color', {'choices': ['auto', 'always', 'never'], 'default': 'auto'},
     'color the text; auto: on a terminal, where NO_COLOR is not set'),
    ('--threads', {'metavar': 'N', 'type': int}, 'how many threads wcp allows for'),
    ('--wcp', {'metavar': 'PATH'}, 'the program wcp'),
]


class Stop(Exception):
    """The command ends with this status, and says why on standard error."""

    def __init__(self, status, why):
        super().__init__(why)
        self.status, self.why = status, why


def add_options(parser):
    for word, how, text in OPTIONS:
        parser.add_argument(word, help=text, **how)


def say(text):
    print(f'explain: {shown(text)}', file=sys.stderr)


class Found:
    """The entries of all traces, by their places, with the runs in which they were met. `is_kept`: whether
    the traces stay after the command."""

    def __init__(self, is_kept):
        self.is_kept = is_kept
        self.by_places, self.runs, self.status, self.refused, self.notes = {}, {}, 0, 0, []

    def meet(self, pairs, run):
        """Counts the pairs that were met before; answers the others."""
        for places, pair in pairs.items():
            self.runs.setdefault(places, set()).add(run)
            if places in self.by_places:
                self.by_places[places]['events'] += pair.count
        return [(places, pair) for places, pair in pairs.items() if places not in self.by_places]


def explain_trace(path, options, found, run):
    """Adds the entries of a trace. Prints what `wcp` says of one that is refused."""
    try:
        size = os.path.getsize(path)
        if not os.path.isfile(path):
            raise Stop(FAULT, f'{path} is no plain file, as it has to be: it is read more than once')
        bar = Bar('read', size)
        trace = Trace(path, bar.tell)
        bar.end()
        info = Info().read(path + '.info')
        pairs = pairs_of(races_of(report_of(path, trace, size, options)))
    except Refused as refused:
        found.status = refused.status
        found.refused += 1
        if refused.out:
            print(shown(text_of(refused.out.rstrip(b'\n'))))
        say(f'{path} has no report by wcp, so nothing is explained')
        return
    note_what_is_missing(path, trace, info, found)
    new = found.meet(pairs, run)
    if new:
        make_entries(path, trace, info, new, found)
    if not options.report:
        add_schedules(path, trace, size, options, found, [found.by_places[places] for places in pairs])


def make_entries(path, trace, info, new, found):
    symbols = Symbols(info)
    try:
        maker = Maker(trace, [pair for _, pair in new], lambda forks: Naming(info, symbols, forks))
        for (places, _), entry in zip(new, maker.entries()):
            found.by_places[places] = {**entry, 'schedule': None}
    except OtherTrace as other:
        raise Stop(USAGE, f'the report is not of {path}: event {other} is another there')
    finally:
        symbols.close()
    found.notes += [note for note in symbols.notes if note not in found.notes]


def report_of(path, trace, size, options):
    if options.report:
        with open(options.report, 'rb') as file:
            return file.read()
    return ask('replay', path, trace, size, options)


def add_schedules(path, trace, size, options, found, entries):
    """Adds to each entry of this trace whether a schedule shows it. Where `wcp witness` fails, as for want of
    memory, they stay as they are."""
    if all(is_shown(entry) for entry in entries):
        return
    try:
        schedules = schedules_of(ask('witness', path, trace, size, options, stderr=subprocess.DEVNULL))
    except Refused as refused:
        found.notes.append(f'wcp witness ended with status {refused.status} on {path}: '
                           'its entries do not mention schedules')
        return
    for places, event in schedules.items():
        entry = found.by_places.get(places)
        if entry and not is_shown(entry):
            command = command_of(event, path, threads_of(trace, options)) if event and found.is_kept else None
            entry['schedule'] = {'event': event, 'command': command}


def ask(command, path, trace, size, options, **how):
    """What a command of `wcp` prints of the trace."""
    program = find_program(options.wcp, HERE)
    if program is None:
        raise Stop(NO_PROGRAM, 'there is no program wcp: build it by ./wcp, or name it by --wcp PATH')
    bar = Bar(f'wcp {command}', size, trace.events)
    try:
        return answer_of(program, command, path, threads_of(trace, options), bar.tell, **how)
    finally:
        bar.end()


def threads_of(trace, options):
    """How many threads `wcp` has to be told to allow for; None where its default will do."""
    if options.threads or len(trace.threads.names) <= DEFAULT_THREADS:
        return options.threads
    return len(trace.threads.names)


def note_what_is_missing(path, trace, info, found):
    if trace.events == 0:
        found.notes.append(f'{path} has no events: nothing was recorded')
    if not info.is_there:
        found.notes.append(f'there is no {path}.info: places and variables are named as in the trace')
    elif info.status not in (None, b'whole'):
        found.notes.append(f'{path} was cut short ({text_of(info.status)}): races after that are not seen')


def chosen(found, options):
    """The entries that are neither suppressed nor known, and how many were left out so; writes known races."""
    suppressions = read_suppressions(options.suppressions) if options.suppressions else []
    known = read_known(options.known) if options.known else set()
    entries, suppressed, seen, keys = [], 0, 0, set(known)
    for entry in found.by_places.values():
        if any(suppression.fits(entry) for suppression in suppressions):
            suppressed += 1
            continue
        entry['key'] = key_of(entry)
        keys.add(entry['key'])
        if entry['key'] in known:
            seen += 1
        else:
            entries.append(entry)
    if options.write_known:
        write_known(options.write_known, keys)
    return entries, suppressed, seen


def in_order(entries):
    """The entries in the order in which they are numbered: first those that a schedule shows. `after` is the
    first entry above whose race comes earlier in the report."""
    order = sorted(enumerate(entries), key=lambda placed: not is_shown(placed[1]))
    for number, (place, entry) in enumerate(order, 1):
        entry['number'] = number
        above = order[:number - 1]
        entry['after'] = next((other['number'] for before, other in above if before < place), None)
    return [entry for _, entry in order]


def explain(runs, options, is_kept=True, out=sys.stdout):
    """Explains runs of one program, each a list of traces, one of a process; answers the exit status."""
    found = Found(is_kept)
    for run, paths in enumerate(runs):
        for path in paths:
            explain_trace(path, options, found, run)
    for places, entry in found.by_places.items():
        entry.update(runs=len(found.runs[places]), of_runs=len(runs))
    entries, suppressed, seen = chosen(found, options)
    entries = in_order(entries)
    printed = entries if options.first is None else entries[:max(options.first, 0)]
    if options.json:
        print_json(out, printed)
    else:
        print_text(Printer(out, is_colored(options.color, out)), printed, len(entries))
        if found.refused < sum(map(len, runs)):
            print_sum(out, len(runs), len(entries), len(printed), suppressed, seen, found.refused)
    out.flush()
    for note in found.notes:
        say(note)
    return found.status or (RACE if entries else 0)


def print_sum(out, runs, races, printed, suppressed, seen, refused):
    text = f'{races or "no"} race{"s" * (races != 1)}' + (f' in {runs} runs' if runs > 1 else '')
    notes = [f'the first {printed} printed'] * (printed < races)
    notes += [f'{suppressed} suppressed'] * (suppressed > 0) + [f'{seen} known'] * (seen > 0)
    notes += [f'{refused} trace{"s" * (refused != 1)} without a report'] * (refused > 0)
    out.write(', '.join([text, *notes]) + '\n')


def is_colored(color, out):
    return color == 'always' or color == 'auto' and out.isatty() and not os.environ.get('NO_COLOR')


def guarded(work):
    """Runs the work, which answers a status; what fails has a status and a line of its own."""
    sys.stdout.reconfigure(errors='backslashreplace')
    try:
        return work()
    except Stop as stop:
        say(stop.why)
        return stop.status
    except BadSuppressions as bad:
        say(str(bad))
        return USAGE
    except BrokenPipeError:
        os.dup2(os.open(os.devnull, os.O_WRONLY), sys.stdout.fileno())
        return FAULT
    except OSError as error:
        say(f'{error.filename or "a read or a write"}: {error.strerror or error}')
        return FAULT
    except MemoryError:
        say('out of memory')
        return MEMORY
    except KeyboardInterrupt:
        return 130
    except Exception:
        # A mistake of this program's own: its status is not that of a race.
        traceback.print_exc()
        return MISTAKE


def main():
    parser = argparse.ArgumentParser(
        prog='explain', description='Explains the races of a recorded run: one entry for each pair of places.',
        epilog='The exit status is that of wcp replay, except that 1 means a race that is neither suppressed '
               'nor known.')
    add_options(parser)
    parser.add_argument('trace', nargs='+', metavar='TRACE', help='a trace; several are runs of one program')
    options = parser.parse_args()
    if options.report and len(options.trace) > 1:
        parser.error('--report takes one trace')
    return guarded(lambda: explain([[path] for path in options.trace], options))
