"""Suppressions in the syntax of ThreadSanitizer: lines `race:PATTERN`. A pattern is looked for in the functions,
files and objects of both stacks, and in the variable's name; `*` stands for anything, `^` and `$` for the
beginning and the end. `race_top:PATTERN` looks at the two accesses' own frames alone. `#` begins a comment;
lines of other kinds, such as `deadlock:`, suppress nothing here."""
import re

KINDS = {'race': None, 'race_top': 1}
OTHERS = ('thread', 'mutex', 'signal', 'deadlock', 'called_from_lib', 'fake', 'leak', 'vptr_check')


class BadSuppressions(Exception):
    """A line has none of the kinds."""


class Suppression:
    def __init__(self, kind, pattern):
        self.text, self.depth = f'{kind}:{pattern}', KINDS[kind]
        begin = '' if pattern.startswith('^') else '.*'
        end = '' if pattern.endswith('$') else '.*'
        parts = pattern.removeprefix('^').removesuffix('$').split('*')
        self.pattern = re.compile(begin + '.*'.join(re.escape(part) for part in parts) + end, re.S)

    def fits(self, entry):
        variable = entry['variable']
        names = [] if self.depth else [variable['symbol'], variable['name']]
        for access in (entry['first'], entry['second']):
            for frame in access['frames'][:self.depth]:
                names += [frame['function'], frame['file'], frame['place']]
        return any(name is not None and self.pattern.fullmatch(name) for name in names)


def read_suppressions(path):
    found = []
    with open(path, errors='backslashreplace') as file:
        for number, line in enumerate(file, 1):
            kind, colon, pattern = line.strip().partition(':')
            if not kind or kind.startswith('#') or kind in OTHERS:
                continue
            if kind not in KINDS or not pattern:
                raise BadSuppressions(f'{path}:{number}: no line of the form race:PATTERN')
            found.append(Suppression(kind, pattern))
    return found
