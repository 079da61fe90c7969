"""Processes that work side by side, and end with the one that started them."""

import concurrent.futures
import contextlib
import os
import signal
import threading
import time
from collections.abc import Iterator
from types import FrameType

STEP = 0.5  # seconds between two looks at whether the first process is still there


def _end_with(parent: int) -> None:
    """Lets this process end as soon as its parent is gone, however that ended."""

    def look() -> None:
        """Looks again and again."""
        while os.getppid() == parent:
            time.sleep(STEP)
        os._exit(1)

    signal.signal(signal.SIGTERM, signal.SIG_DFL)
    signal.signal(signal.SIGINT, signal.SIG_IGN)
    threading.Thread(target=look, daemon=True).start()


@contextlib.contextmanager
def pool(count: int) -> Iterator[concurrent.futures.ProcessPoolExecutor]:
    """So many processes. What was not begun is given up where the work ends early."""
    made = concurrent.futures.ProcessPoolExecutor(
        count, initializer=_end_with, initargs=(os.getpid(),)
    )
    try:
        yield made
    finally:
        made.shutdown(cancel_futures=True)


def _stop(number: int, _: FrameType | None) -> None:
    """Ends the program where it stands, so that all that is open is closed."""
    signal.signal(number, signal.SIG_IGN)
    raise KeyboardInterrupt


def stop_at_signals() -> None:
    """Lets the signals that ask for an end do what Ctrl-C does."""
    for number in (signal.SIGTERM, signal.SIGHUP):
        signal.signal(number, _stop)
