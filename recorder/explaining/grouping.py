"""Groups entries that share a side: one cause may have many pairs of places."""
from collections import Counter

from .naming import main_frame


def side(access):
    """A side's name: the function that makes the access, or the location where no function is known."""
    frame = main_frame(access['frames'])
    return frame['function'] or frame['place']


def grouped(entries):
    """The entries as groups, (side, entries), in the order of the first of each. The side that most entries
    share makes the first group, and so on; an entry that shares none has a group of its own, with None."""
    left, groups = list(entries), []
    while left:
        shares = Counter()
        for entry in left:
            shares.update({side(entry['first']), side(entry['second'])})
        # The first among equals is the one of the earliest entry.
        name, most = max(shares.items(), key=lambda share: share[1])
        if most < 2:
            groups += [(None, [entry]) for entry in left]
            break
        group = [entry for entry in left if name in (side(entry['first']), side(entry['second']))]
        groups.append((name, group))
        taken = {entry["number"] for entry in group}
        left = [entry for entry in left if entry["number"] not in taken]
    return sorted(groups, key=lambda group: group[1][0]['number'])
