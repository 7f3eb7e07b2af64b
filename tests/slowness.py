"""How much slower the processor is now than the one that bounds on CPU time are written for: it, or its machine's other work."""
import time

# A loop of that many turns takes that many CPU seconds with Python 3.11 on a processor that proves qpack_base in 265 seconds.
TURNS = 2_000_000
USUAL = 0.09


def measure_slowness():
    """Returns how many times as long as usual the loop takes, at least 1."""
    before, total = time.thread_time(), 0
    for turn in range(TURNS):
        total += turn
    return max(1.0, (time.thread_time() - before) / USUAL)
