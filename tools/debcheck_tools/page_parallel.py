"""Does jobs side by side, each in a process of its own that ends with it."""

import gc
import multiprocessing
import os
from collections.abc import Callable, Iterator, Sequence
from multiprocessing.connection import Connection, wait
from multiprocessing.context import ForkProcess
from typing import TypeVar

Job = TypeVar("Job")
Result = TypeVar("Result")


def processors() -> int:
    """How many processors this process may use."""
    return len(os.sched_getaffinity(0))


def work(send: Connection, call: Callable[[Job], Result], job: Job) -> None:
    """What a process does: one job, whose result it sends. It ends then, so nothing has to be collected before."""
    gc.disable()
    send.send(call(job))
    send.close()


def side_by_side(call: Callable[[Job], Result], jobs: Sequence[Job], width: int) -> Iterator[tuple[Job, Result | None]]:
    """Each job with its result, as they end; None where its process was killed or fell. At most so many run at once.

    No process outlives its own job, so none is left behind for long where this one is killed.
    """
    forking = multiprocessing.get_context("fork")
    ahead = list(reversed(jobs))
    running: dict[Connection, tuple[Job, ForkProcess]] = {}
    while ahead or running:
        while ahead and len(running) < width:
            job = ahead.pop()
            receive, send = forking.Pipe(duplex=False)
            process = forking.Process(target=work, args=(send, call, job))
            process.start()
            send.close()
            running[receive] = job, process
        for ended in wait(list(running)):
            assert isinstance(ended, Connection)
            job, process = running.pop(ended)
            try:
                result: Result | None = ended.recv()
            except EOFError:
                result = None
            ended.close()
            process.join()
            yield job, result
