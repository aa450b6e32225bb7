"""Processes that judge packs side by side."""

from __future__ import annotations

import contextlib
import multiprocessing
import signal
from multiprocessing.connection import Connection, wait
from typing import Callable, Dict, Generator, Sequence, Tuple

from .console import UNUSABLE, plain
from .many import Outcome

# The processes are copies of this one, with all that it has read.
FORKING = multiprocessing.get_context("fork")


class Worker:
    """A process that answers with `act(number)` for each number that it is sent."""

    def __init__(self, act: Callable[[int], Outcome]) -> None:
        self.connection, theirs = FORKING.Pipe()
        self.process = FORKING.Process(target=serve, args=(theirs, self.connection, act), daemon=True)
        self.process.start()
        # Each has its own end alone, so that the end of one is seen by the other as the end of the connection.
        theirs.close()


def serve(connection: Connection, other_end: Connection, act: Callable[[int], Outcome]) -> None:
    # Ctrl-C reaches every process of the call; it is the first one's to tell.
    signal.signal(signal.SIGINT, signal.SIG_DFL)
    other_end.close()
    # Where the first one is gone, so is the connection.
    with contextlib.suppress(EOFError, OSError):
        while True:
            connection.send(act(connection.recv()))


def side_by_side(packs: Sequence[str], jobs: int, act: Callable[[int], Outcome]) -> Generator[Outcome, None, None]:
    """The outcome of each pack, in their order, by so many processes; `act` is given a pack's place."""
    waiting = iter(range(len(packs)))
    at_work: Dict[object, Tuple[Worker, int]] = {}
    done: Dict[int, Outcome] = {}

    def set_to_work(worker: Worker) -> None:
        at = next(waiting, None)
        if at is not None:
            worker.connection.send(at)
            at_work[worker.connection] = worker, at

    try:
        for _ in range(min(jobs, len(packs))):
            set_to_work(Worker(act))
        for turn in range(len(packs)):
            while turn not in done:
                for connection in wait([worker.connection for worker, _ in at_work.values()]):
                    worker, at = at_work.pop(connection)
                    try:
                        done[at] = worker.connection.recv()
                    except (EOFError, OSError):
                        done[at] = lost(packs[at])
                        worker = Worker(act)
                    set_to_work(worker)
            yield done.pop(turn)
    finally:
        for process in multiprocessing.active_children():
            process.terminate()
            process.join()


def lost(pack: str) -> Outcome:
    line = f"{plain(pack)}: the process that judged it was ended from outside, so it was not judged"
    return Outcome(pack, UNUSABLE, line, [line])
