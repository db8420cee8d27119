"""Known races, so that new ones alone fail a test. A line is a race: the variable, and the two sides in the
order of their text, each with its function and the text of its source line, separated by tabs. Neither
offsets nor numbers of lines and events are in it, so it lasts over an edit elsewhere. Where a trace names no
lines, a side is its location."""
from .naming import main_frame

HEAD = '# Known races of wcp: variable, and two sides, each a function and the text of its line.\n'
ESCAPES = str.maketrans({'\\': '\\\\', '\t': '\\t', '\n': '\\n', '\r': '\\r'})


def key_of(entry):
    """The entry's line in a file of known races, without its end."""
    sides = sorted(_side(entry[which]) for which in ('first', 'second'))
    return '\t'.join(field.translate(ESCAPES) for field in [_variable(entry['variable']), *sides])


def _side(access):
    return _place(main_frame(access['frames']))


def _place(frame):
    if frame is None or frame['function'] is None:
        return 'a place' if frame is None else frame['place']
    return f'{frame["function"]}: {frame["text"] or ""}'.rstrip()


def _variable(variable):
    if variable['symbol']:
        return variable['symbol']
    if variable['block'] and variable['block']['frames']:
        return f'{variable["kind"]} block of {_place(main_frame(variable["block"]["frames"]))}'
    return variable['kind'] if variable['kind'] in ('heap', 'mapped', 'stack') else variable['name']


def read_known(path):
    """The lines of a file of known races."""
    with open(path, encoding='utf-8', errors='surrogateescape') as file:
        return {line.rstrip('\n') for line in file if line.strip() and not line.startswith('#')}


def write_known(path, keys):
    with open(path, 'w', encoding='utf-8', errors='surrogateescape') as file:
        file.write(HEAD + ''.join(f'{key}\n' for key in sorted(keys)))
