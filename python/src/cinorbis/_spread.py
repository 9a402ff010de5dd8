"""Long work in threads of its own, so that an interrupt (Ctrl-C) is answered at once.

A call of the library cannot be stopped in the middle, and a thread that makes one sees no interrupt
until it returns. So the caller's own thread makes only calls that are short whatever the readings
are, and waits for the others.
"""

import os
import threading
from typing import Callable, Optional, TypeVar

import numpy as np

from ._arrays import address

# The visits that the caller's own thread may make in one call: a fraction of a second, at 15 to 60
# ns each.
SHORT = 1 << 22
# What a row without a walk counts for, in visits: more than it takes.
NO_WALK = 100

_Result = TypeVar("_Result")


def spread(
    work: Callable[[int, int, int], None], count: int, threads: Optional[int], visits: int
) -> None:
    """Calls work(first, end, stop) over all rows, in several threads.

    A row takes at most that many visits. ``stop`` is the address of a byte that a loop in C looks
    at before each row: an interrupt sets it and is raised at once, and each thread then ends after
    the row that it is at. No thread delays the end of the process.
    """
    if threads is not None and threads < 1:
        raise ValueError(f"threads is {threads}; it has to be 1 or more")
    wanted = threads if threads is not None else (os.cpu_count() or 1)
    workers = min(wanted, max(count // 64, 1))
    stop = np.zeros(1, np.uint8)
    if workers == 1 and count * visits <= SHORT:
        work(0, count, address(stop))
        return
    # small parts, so that no thread waits long for another; next() on a range is one step
    step = max(min(count // (workers * 8), 512), 64)
    parts = iter(range(0, count, step))
    ended, failed = threading.Semaphore(0), []

    def run() -> None:
        try:
            for first in parts:
                if stop[0]:
                    break
                work(first, min(first + step, count), address(stop))
        except BaseException as error:
            stop[0] = 1
            failed.append(error)
        finally:
            ended.release()

    try:
        for _ in range(workers):
            threading.Thread(target=run, daemon=True).start()
        for _ in range(workers):
            ended.acquire()
    except BaseException:
        stop[0] = 1
        raise
    if failed:
        raise failed[0]


def awaited(work: Callable[[], _Result], visits: int) -> _Result:
    """What one call gives that takes at most that many visits."""
    if visits <= SHORT:
        return work()
    found: list[_Result] = []
    spread(lambda first, end, stop: found.append(work()), 1, 1, visits)
    return found[0]
