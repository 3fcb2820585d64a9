"""A bar of how far something has come, on standard error where that is a terminal."""
import sys
import time

WIDTH = 30


class Bar:
    def __init__(self):
        self.shown = sys.stderr.isatty()
        self.last = 0.0

    def show(self, part, words):
        """Shows which part is done, from 0 to 1, at most five times a second."""
        if self.shown and time.monotonic() - self.last > 0.2:
            self.last = time.monotonic()
            full = min(WIDTH, int(part * WIDTH))
            print(f"\r[{'#' * full}{'.' * (WIDTH - full)}] {part:4.0%} {words} ", end="", file=sys.stderr, flush=True)

    def end(self):
        if self.shown and self.last:
            print(file=sys.stderr)


def clock(seconds):
    return f"{int(seconds) // 3600}:{int(seconds) // 60 % 60:02}:{int(seconds) % 60:02}"
