"""How long is waited on a machine that has other work: longer, by what a quick look at it says. What a case demands stays the same."""
import subprocess
import sys
import time

QUIET = 0.1         # seconds in which a Python starts and ends on a quiet machine, with some to spare
SLOWEST = 15
KEPT = [1.0]        # how many times slower the machine was at the last look, by all threads


def look():
    """Looks how slow the machine is now."""
    began = time.monotonic()
    for _ in range(3):
        subprocess.run([sys.executable, "-I", "-S", "-c", "pass"], check=True)
    KEPT[0] = min(max((time.monotonic() - began) / (3 * QUIET), 1), SLOWEST)


def times():
    """How many times slower than a quiet machine this one is."""
    return KEPT[0]


def slow(seconds):
    """What takes so long on a quiet machine at most."""
    return seconds * KEPT[0]
