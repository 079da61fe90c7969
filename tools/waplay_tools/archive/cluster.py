"""Replays on a Dask cluster. The bags are checked here; scripts, assets and the program are sent,
and what replays them too, so that the workers need nothing of waplay."""

import contextlib
import importlib
import logging
import time
from collections.abc import Callable, Iterator
from concurrent.futures import CancelledError
from pathlib import Path
from typing import Any

from waplay_tools.archive import performing, verifying
from waplay_tools.archive.adding import Program
from waplay_tools.archive.performing import Outcome, Task
from waplay_tools.archive.verifying import Result
from waplay_tools.reporting.text import BadInput

SECONDS = 20  # that a scheduler has to answer
AHEAD = 8  # tasks that are sent for each thread of a worker


def _module(name: str) -> Any:
    """A module that comes with Dask."""
    try:
        return importlib.import_module(name)
    except ImportError:
        raise BadInput("--scheduler wants the module distributed, of the package"
                       " python3-distributed") from None


def client_of(address: str) -> Any:
    """A client of the scheduler at an address."""
    distributed = _module("distributed")
    logging.getLogger("distributed").setLevel(logging.CRITICAL)
    try:
        return distributed.Client(address, timeout=SECONDS)
    except (OSError, ValueError) as fault:
        raise BadInput(f"no scheduler answers at {address}: {fault}") from None


def threads_of(client: Any, address: str) -> int:
    """How many threads the workers of a scheduler have. Workers may come a little later."""
    with contextlib.suppress(TimeoutError):
        client.wait_for_workers(1, timeout=SECONDS)
    threads = sum(client.nthreads().values())
    if not threads:
        raise BadInput(f"the scheduler at {address} has no workers")
    return threads


def packed(task: Task) -> bytes:
    """A task with the code that does it, as bytes."""
    cloudpickle = _module("cloudpickle")
    cloudpickle.register_pickle_by_value(performing)
    data: bytes = cloudpickle.dumps((performing.perform, task))
    return data


def worker_function() -> Callable[[bytes, bytes], list[dict[str, Any]]]:
    """What a worker does with a task and a program. It is a function within another one, which is
    sent as it is."""

    def work(data: bytes, program: bytes) -> list[dict[str, Any]]:
        """Unpacks a task and does it."""
        import pickle

        perform, task = pickle.loads(data)
        return [vars(outcome) for outcome in perform(task, program)]

    return work


class Sent:
    """Bags of which the replays are on their way, by the keys of their futures."""

    def __init__(self, archive: Path, client: Any, program: Program) -> None:
        self.archive, self.client = archive, client
        with open(program.path, "rb") as file:
            self.program = client.scatter(file.read(), broadcast=True)
        self.work = worker_function()
        self.bags: dict[str, tuple[str, int, float]] = {}

    def send(self, name: str, digest: str) -> tuple[Result | None, Any]:
        """The result of a bag that is not good, or the future of its replays."""
        begun = time.monotonic()
        wrong, task = verifying.checked(self.archive / name, digest, True)
        if task is None:
            return Result(name, wrong, 0, round(time.monotonic() - begun, 4)), None
        future = self.client.submit(self.work, packed(task), self.program, pure=False)
        self.bags[future.key] = (name, len(task.contexts), begun)
        return None, future

    def result(self, future: Any) -> Result:
        """The result of a bag whose replays are done."""
        name, contexts, begun = self.bags.pop(future.key)
        wrong = []
        try:
            for told in future.result():
                found = verifying.differing(self.archive / name, Outcome(**told))
                wrong += [str(it) for it in found]
        except (CancelledError, OSError):  # the scheduler is gone, which is no result of a bag
            raise
        except Exception as fault:  # whatever else a worker ends with is one
            wrong.append(f"its replay failed on a worker: {fault}")
        return Result(name, wrong, contexts, round(time.monotonic() - begun, 4))


def on_a_cluster(
    archive: Path, digests: dict[str, str], program: Program, address: str
) -> Iterator[Result]:
    """The results of bags, replayed by the workers of a scheduler, as they come."""
    client = client_of(address)
    try:
        threads = threads_of(client, address)
        yield from results_of(Sent(archive, client, program), digests, AHEAD * threads)
    except (CancelledError, OSError):
        raise BadInput(f"the scheduler at {address} went away; the same command goes on") from None
    finally:
        client.close()


def results_of(sent: Sent, digests: dict[str, str], most: int) -> Iterator[Result]:
    """The results of bags as they come. At most so many are on their way at a time."""
    arriving = _module("distributed").as_completed()
    for name, digest in digests.items():
        result, future = sent.send(name, digest)
        if result:
            yield result
        else:
            arriving.add(future)
        while len(sent.bags) >= most:
            yield sent.result(next(arriving))
    while sent.bags:
        yield sent.result(next(arriving))
