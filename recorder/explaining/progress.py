"""A bar on a terminal: how much of a long work is done, and how long the rest may take."""
import sys
import time

WIDTH = 24


class Bar:
    """Draws on standard error where that is a terminal, at most ten times a second, and only where the work
    takes longer than half a second."""

    def __init__(self, what, total, events=None, stream=None):
        self.what, self.total, self.events = what, max(total, 1), events
        self.stream = stream or sys.stderr
        self.is_shown = self.stream.isatty()
        self.began = time.monotonic()
        self.next, self.is_drawn = self.began + 0.5, False

    def tell(self, done, events=None):
        """So many bytes are done, and so many events, where that is known; else it is the same share."""
        now = time.monotonic()
        if not self.is_shown or now < self.next:
            return
        self.next, self.is_drawn = now + 0.1, True
        share = min(done / self.total, 1)
        if events is None and self.events is not None:
            events = int(self.events * share)
        left = (now - self.began) * (1 - share) / max(share, 0.001)
        full = round(WIDTH * share)
        self.stream.write(f'\r{self.what} [{"#" * full}{"." * (WIDTH - full)}] {done / 1e6:.0f} of '
                          f'{self.total / 1e6:.0f} MB, {(events or 0) / 1e6:.1f} million events, '
                          f'{left:.0f} s left \x1b[K')
        self.stream.flush()

    def end(self):
        if self.is_drawn:
            self.stream.write('\r\x1b[K')
            self.stream.flush()
