"""Prints entries as text: the race, its two accesses with their stacks, what hid it, whether a schedule shows
it, and where its threads were started. Each text that comes from the program is printed by `shown`."""
import json
import textwrap

from .grouping import grouped
from .names import shown, source
from .naming import thread_text, where
from .schedules import is_shown

WIDTH = 108
LONGEST = 90
COLORS = {'race': '1;31', 'heading': '1', 'warning': '33', 'none': ''}


class Printer:
    """Writes lines to a stream, some in color."""

    def __init__(self, stream, is_colored):
        self.stream, self.is_colored = stream, is_colored

    def line(self, text='', color='none'):
        text = shown(text)
        if self.is_colored and COLORS[color]:
            text = f'\x1b[{COLORS[color]}m{text}\x1b[0m'
        self.stream.write(text + '\n')

    def paragraph(self, text, indent=2, color='none'):
        for number, part in enumerate(textwrap.wrap(shown(text), WIDTH - indent - 2, break_long_words=False,
                                                    break_on_hyphens=False)):
            self.line(' ' * (indent + 2 * (number > 0)) + part, color)


def print_text(printer, entries, total):
    """All entries: first those that a schedule shows, then the others; of each, those that share a side under
    one heading. `total` is how many there are in all."""
    groups = [group for part in (True, False)
              for group in grouped([entry for entry in entries if is_shown(entry) == part])]
    for side, group in groups:
        if side is not None:
            printer.line(f'{len(group)} races have {cut(side)} on one side: they may have one cause', 'heading')
            printer.line()
        for entry in group:
            print_entry(printer, entry, total)
            printer.line()


def print_entry(printer, entry, total):
    events = f'{entry["events"]} event{"s" * (entry["events"] != 1)}'
    runs = f' in {entry["runs"]} of {entry["of_runs"]} runs' if entry['of_runs'] > 1 else ''
    printer.line(f'race {entry["number"]} of {total}: {about(entry)}, {events}{runs}', 'race')
    if entry['after']:
        printer.line(f'  comes after race {entry["after"]}, and may be its consequence: look at that first')
    print_access(printer, entry, entry['first'])
    print_access(printer, entry, entry['second'])
    if entry['stacks'] > 1:
        printer.line(f'  reached by {entry["stacks"]} pairs of stacks, of which this is the first')
    if entry['is_hidden']:
        print_path(printer, entry)
    else:
        printer.paragraph('also a race by happens-before: no lock, start or join orders the two in this run')
    if entry['schedule']:
        printer.line('  ' + schedule_text(entry))
    for step in entry['steps']:
        print_warning(printer, step, entry['is_recorded'])
    print_block(printer, entry['variable']['block'])
    print_starts(printer, entry)


def about(entry):
    variable = entry['variable']
    notes = []
    if variable['kind'] == 'global':
        notes = ['global', f'{variable["size"]} byte{"s" * (variable["size"] != 1)}']
    if variable['declared']:
        notes.append(source(variable['declared']['file'], variable['declared']['line']))
    text = variable['text'] + (f' ({", ".join(notes)})' if notes else '')
    others = entry['other_variables']
    return text + (f' and {others} more variable{"s" * (others > 1)}' if others else '')


def print_access(printer, entry, access):
    # A writer holds the parts of all threads of a reader-writer lock.
    locks = dict.fromkeys(f'{lock_text(lock)} ({where(lock["at"])})' for lock in access['locks'])
    held = 'holding ' + ', '.join(locks)
    operation = 'atomic ' * access['is_atomic'] + access['operation']
    printer.paragraph(f'{operation} by {thread_text(access["thread"])}, event {access["event"]}, '
                      + (held if access['locks'] else 'holding no lock'))
    print_frames(printer, access['frames'])


def print_frames(printer, frames):
    """Below the first frame of the program, those of the system and the recorder are left out."""
    rows, own = [], False
    for number, frame in enumerate(frames):
        if not (own and frame['is_system']):
            function = cut(frame['function']) if frame['function'] else ''
            rows.append((f'#{number} {function}'.rstrip(), where(frame), frame['text'] or ''))
        own = own or not frame['is_system']
    first = min(max(len(shown(row[0])) for row in rows), 40)
    second = min(max(len(shown(row[1])) for row in rows), 40)
    for function, place, text in rows:
        gap = '  ' if first > 3 else ' '
        printer.line(f'    {shown(function):<{first}}{gap}{shown(place):<{second}}  {cut(text)}'.rstrip())


def print_path(printer, entry):
    """What orders the two accesses in the trace, step by step."""
    texts = [step_text(entry, number) for number in range(len(entry['steps']))]
    locks = [step for step in entry['steps'] if step['kind'] == 'lock']
    later = [step for step in locks if step['conflict_is_later']]
    refuted = [step for step in locks if step['conflict'] is not None and not step['conflict_is_later']]
    end = ''
    if len(texts) == 1 and not refuted:
        end = (f' Up to that {entry["second"]["operation"]} their' if later else ' Their') + \
            ' sections have no conflicting accesses, so they may come in the other order.'
    elif not refuted:
        end = 'No two of these sections have conflicting accesses' + (
            ' before the path leaves them' if later else '') + ', so they may come in the other order.'
    detector = 'A detector by happens-before does not report this race.'
    if len(texts) == 1:
        printer.paragraph(f'hidden by the schedule: {texts[0]}.{end} {detector}')
    else:
        printer.line('  hidden by the schedule, in this order:')
        for text in texts:
            printer.paragraph(text, 4)
        printer.paragraph(f'{end} {detector}')


def step_text(entry, number):
    step = entry['steps'][number]
    is_first, is_last = number == 0, number == len(entry['steps']) - 1
    after = f', after its {entry["first"]["operation"]}' if is_first else ''
    before = f', before its {entry["second"]["operation"]}' if is_last else ''
    giver, taker = step['giver']['name'], step['taker']['name']
    if step['kind'] == 'fork':
        return f'{giver} started {taker} ({where(step["at"])}) at event {step["event"]}{after}{before}'
    if step['kind'] == 'join':
        return f'{taker} joined {giver} ({where(step["at"])}) at event {step["event"]}{before}'
    released, acquired = step['released'], step['acquired']
    is_signal = step['lock']['part'][1:].isdigit()
    gave, took = ('waited for', 'waited for it too') if is_signal else ('released', 'acquired it')
    return (f'{giver} {gave} {lock_text(step["lock"])} ({where(released["at"])}) at event {released["event"]}'
            f'{after}; {taker} {took} ({where(acquired["at"])}) at event {acquired["event"]}{before}')


def schedule_text(entry):
    """Whether a schedule shows the race, on one line, so that its command can be copied."""
    event, command = entry['schedule']['event'], entry['schedule']['command']
    if event is None:
        return 'no schedule was found that shows it; the race may still be real'
    which = 'it' if event == entry['second']['event'] else 'another race of these places'
    return f'a schedule shows {which}: ' + (
        command or 'keep the trace by --keep FOLDER, for the command that prints it')


def print_warning(printer, step, is_recorded):
    if step.get('empty'):
        which = f'section of {step["empty"][0]} on {lock_text(step["lock"])} has'
        if len(step['empty']) > 1:
            which = f'sections of {" and ".join(step["empty"])} on {lock_text(step["lock"])} have'
        printer.paragraph(
            f'warning: the {which} no access in the trace. Where code that is not instrumented works in it, that '
            'may order the two accesses, and then this is no race.' + (
                ' (The recorder leaves out what one thread alone accesses; WCP_ALL=1 keeps it.)' *
                is_recorded), color='warning')


def print_block(printer, block):
    if block and block['frames']:
        by = f' by {block["thread"]}' if block['thread'] else ''
        printer.line(f'  the block of {block["size"]} bytes was allocated{by}:')
        frames = block['frames']
        own = [frame for frame in frames if not frame['is_system']]
        print_frames(printer, own or frames)


def print_starts(printer, entry):
    threads = {entry[which]['thread']['name']: entry[which]['thread'] for which in ('first', 'second')}
    starts = [f'{thread["name"]} was started by {thread["started_by"]} at {where(thread["started_at"])}'
              for thread in threads.values() if thread['started_by']]
    if starts:
        printer.paragraph(', '.join(starts))


def lock_text(lock):
    text = lock['text'] if lock['text'].startswith('`') else f'the lock at {lock["text"]}'
    return f'a signal of {text}' if lock['part'][1:].isdigit() else text


def cut(text):
    return text if len(text) <= LONGEST else text[:LONGEST - 3] + '...'


def print_json(stream, entries):
    for entry in entries:
        stream.write(json.dumps(entry) + '\n')
