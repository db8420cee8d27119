"""Finds for which pairs of places a schedule shows a race, by what `wcp witness` prints."""
import shlex

from .replay import Refused, places_of, race_of


def schedules_of(answer):
    """The event that a schedule shows at each pair of places, None where none was found: {places: event}."""
    events = {}
    for line in answer.split(b'\n')[1:]:
        if line:
            places, event = _line(line)
            # Locations that differ by their stacks have one place: the first schedule among theirs is taken.
            events[places] = events.get(places) or event
    return events


def _line(line):
    word, _, race = line.split(b' ', 2)
    if word not in (b'witness', b'none'):
        raise Refused(4, line)
    race = race_of(race)
    return places_of(race), race.second.number if word == b'witness' else None


def is_shown(entry):
    """Whether a schedule was found that shows a race of the entry."""
    return bool(entry['schedule'] and entry['schedule']['event'])


def command_of(event, path, threads):
    """The command that prints the schedule."""
    allowed = f' --threads {threads}' if threads else ''
    return f'wcp witness {event}{allowed} < {shlex.quote(path)}'
