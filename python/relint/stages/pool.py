"""Workers: forked processes that do pieces of work one after the other, with limits on time, memory and answers.

Pieces and answers are values of JSON, a line each. A piece costs at most its own answer: a worker that crashes, exceeds a
limit or answers wrongly is ended by its id, and another one is forked. A worker writes no file and no core, and has no output.
"""
from __future__ import annotations

import fcntl
import gc
import json
import math
import os
import resource
import selectors
import signal
import sys
import time
from collections import deque
from typing import Any, Callable, Deque, Dict, Iterator, List, NoReturn, Optional, Sequence, Set, Tuple

# The processor time of a piece in seconds, the address space of a worker in bytes, and the largest line with an answer.
SECONDS, MEMORY, LARGEST_ANSWER = 20.0, 2 << 30, 64 << 20
# A piece is also ended after PATIENCE times its seconds by the clock.
PATIENCE = 20
# How many workers are forked at once at most; the others follow if there is work for them.
EARLY = 4
READ_AT_A_TIME = 1 << 18
# A free worker takes a piece that waits for another one, which has its tree, only if so many wait there.
PILED_UP = 4
STOPPING = (signal.SIGINT, signal.SIGTERM, signal.SIGHUP)
LATE = "it took more than {:g} seconds of processor time"
STUCK = "it took more than {:g} seconds"
DIED = "the process that read it was ended by signal {}"
ENDED = "the process that read it ended with status {}"
TOO_LARGE = f"the answer has more than {LARGEST_ANSWER:,} bytes"
WRONG = "the process that read it gave no answer"
NO_TIME = "the time was over"


class _Worker:
    """A forked process with its pipes, what is still to be written to it, and what it has written."""

    def __init__(self, pid: int, ask: int, say: int) -> None:
        """Takes the process id, and the parent's ends of the pipes to and from the process."""
        self.pid, self.ask, self.say = pid, ask, say
        self.left = memoryview(b"")
        self.parts: List[bytes] = []
        self.size = 0
        self.at: Optional[int] = None
        self.seconds = SECONDS
        self.begun = 0.0
        self.own: Deque[int] = deque()

    def give(self, at: int, piece: Any) -> None:
        """Notes a piece and its number as the one that the process is to do; it is written later."""
        asked = piece.get("seconds") if isinstance(piece, dict) else None
        self.seconds = min(SECONDS, asked) if isinstance(asked, (int, float)) else SECONDS
        self.left = memoryview(json.dumps([self.seconds, piece]).encode("ascii") + b"\n")
        self.parts, self.size, self.at, self.begun = [], 0, at, time.monotonic()

    def write(self) -> None:
        """Writes as much of the piece as the pipe takes. What an ended process doesn't take is dropped."""
        try:
            self.left = self.left[os.write(self.ask, self.left):]
        except BlockingIOError:
            pass
        except BrokenPipeError:
            self.left = memoryview(b"")

    def read(self) -> Optional[bytes]:
        """Reads what has been written. Returns None until the line is whole; b"" for an ended process or too much."""
        try:
            data = os.read(self.say, READ_AT_A_TIME)
        except BlockingIOError:
            return None
        self.parts.append(data)
        self.size += len(data)
        if not data or self.size > LARGEST_ANSWER:
            return b""
        return b"".join(self.parts) if data.endswith(b"\n") else None


class Pool:
    """Workers that all run the same function. To be used in a `with` statement, which ends them."""

    def __init__(self, jobs: int, work: Callable[[Any], Any], deadline: Optional[float] = None, early: int = EARLY) -> None:
        """Forks the first `early` of at most `jobs` workers, which run `work`; raises OSError if none can be forked.

        After `deadline`, as `time.monotonic` counts, nothing more is done.
        """
        self._work, self._jobs, self._deadline = work, max(1, jobs), deadline
        self._workers: List[_Worker] = []
        self._homes: Dict[str, _Worker] = {}
        self._why: Dict[int, str] = {}
        self.late = False
        for _ in range(min(self._jobs, early, EARLY)):
            self._start()

    def __enter__(self) -> "Pool":
        return self

    def __exit__(self, *_: object) -> None:
        self.close()

    def close(self) -> None:
        """Ends all workers, and waits until they have ended."""
        for it in self._workers[:]:
            self._end(it)

    def why(self, index: int) -> str:
        """Returns a clause why the piece with this number of the last `answers` has no answer; "" if it has one."""
        return self._why.get(index, "")

    def answers(self, pieces: Sequence[Any]) -> Iterator[Tuple[int, Any]]:
        """Yields for each piece its number and its answer, as they come; None is the answer to a piece that failed.

        A piece with a `path` goes to the worker that had this path before. A piece with `seconds` may take so much processor
        time, if that is less than SECONDS. Sets `late` if the deadline passes; the pieces that are left fail then.
        """
        self._why = {}
        shared = deque(range(len(pieces)))
        with selectors.DefaultSelector() as selector:
            try:
                while shared or any(it.own or it.at is not None for it in self._workers):
                    if self._deadline is not None and time.monotonic() >= self._deadline:
                        self.late = True
                        break
                    self._hand_out(pieces, shared, selector)
                    if not any(it.at is not None for it in self._workers):
                        break
                    yield from self._gathered(shared, selector)
                yield from self._failed(shared)
            finally:
                for it in [it for it in self._workers if it.at is not None]:
                    self._end(it)

    def _failed(self, shared: Deque[int]) -> Iterator[Tuple[int, Any]]:
        """Yields None for all pieces that aren't done when no more can be done, with the reason."""
        why = NO_TIME if self.late else "no process can be started for it"
        for worker in self._workers[:]:
            shared.extend(worker.own)
            worker.own.clear()
            if worker.at is not None:
                shared.appendleft(worker.at)
                self._end(worker)
        for at in shared:
            self._why[at] = why
            yield at, None

    def _hand_out(self, pieces: Sequence[Any], shared: Deque[int], selector: selectors.BaseSelector) -> None:
        """Gives each free worker a piece, and forks more of them if that helps."""
        while True:
            for worker in self._workers:
                if worker.at is None:
                    at = self._next(worker, pieces, shared)
                    if at is not None:
                        worker.give(at, pieces[at])
                        selector.register(worker.say, selectors.EVENT_READ, worker)
                        selector.register(worker.ask, selectors.EVENT_WRITE, worker)
            if not shared or len(self._workers) >= self._jobs:
                return
            try:
                self._start()
            except OSError:
                return

    def _next(self, worker: _Worker, pieces: Sequence[Any], shared: Deque[int]) -> Optional[int]:
        """The number of the next piece for a worker: one for a path it has, one that nobody has, or one that is piled up."""
        while not worker.own and shared:
            at = shared.popleft()
            path = pieces[at].get("path") if isinstance(pieces[at], dict) else None
            if isinstance(path, str):
                self._homes.setdefault(path, worker).own.append(at)
            else:
                worker.own.append(at)
        if worker.own:
            return worker.own.popleft()
        longest = max(self._workers, key=lambda it: len(it.own))
        return longest.own.pop() if len(longest.own) >= PILED_UP else None

    def _gathered(self, shared: Deque[int], selector: selectors.BaseSelector) -> Iterator[Tuple[int, Any]]:
        """Waits until a worker has written, or a time is over; yields the pieces that are done, or that failed."""
        busy = [it for it in self._workers if it.at is not None]
        ends = [it.begun + it.seconds * PATIENCE for it in busy]
        ends += [] if self._deadline is None else [self._deadline]
        for key, events in selector.select(max(0.0, min(ends) - time.monotonic())):
            worker: _Worker = key.data
            if events & selectors.EVENT_WRITE:
                worker.write()
                if not worker.left:
                    selector.unregister(worker.ask)
            elif worker.at is not None:
                line = worker.read()
                if line is not None:
                    yield self._done(worker, line, shared, selector)
        now = time.monotonic()
        for worker in busy:
            if worker.at is not None and now > worker.begun + worker.seconds * PATIENCE:
                yield self._fail(worker, STUCK.format(worker.seconds * PATIENCE), shared, selector)

    def _done(self, worker: _Worker, line: bytes, shared: Deque[int], selector: selectors.BaseSelector) -> Tuple[int, Any]:
        """The number and the answer of the piece to which a worker has written `line`; b"" if it wrote none."""
        if not line:
            return self._fail(worker, TOO_LARGE if worker.size > LARGEST_ANSWER else "", shared, selector)
        try:
            said = json.loads(line)
        except (ValueError, RecursionError):
            said = None
        if not isinstance(said, list) or len(said) != 2 or not isinstance(said[1], str) or worker.at is None:
            return self._fail(worker, WRONG, shared, selector)
        if said[1]:
            return self._fail(worker, said[1], shared, selector)
        at, worker.at = worker.at, None
        self._forget(worker, selector)
        return at, said[0]

    def _fail(self, worker: _Worker, why: str, shared: Deque[int], selector: selectors.BaseSelector) -> Tuple[int, Any]:
        """Ends a worker whose piece failed, notes why, and hands on the pieces that were waiting for it."""
        at = worker.at if worker.at is not None else -1
        self._forget(worker, selector)
        shared.extendleft(reversed(worker.own))
        # (the end of a pipe is seen shortly before that of the process)
        status = self._end(worker, 0.0 if why else time.monotonic() + 1)
        self._why[at] = why or _reason(status, worker.seconds)
        return at, None

    def _forget(self, worker: _Worker, selector: selectors.BaseSelector) -> None:
        """Takes a worker's pipes out of those that are waited for."""
        for it in (worker.ask, worker.say):
            if it in selector.get_map():
                selector.unregister(it)

    def _end(self, worker: _Worker, until: float = 0.0) -> int:
        """Kills a worker, unless it ends before the time `until`; returns its status, which tells what ended it."""
        self._workers.remove(worker)
        self._homes = {path: it for path, it in self._homes.items() if it is not worker}
        found, status = os.waitpid(worker.pid, os.WNOHANG)
        while not found and time.monotonic() < until:
            time.sleep(0.001)
            found, status = os.waitpid(worker.pid, os.WNOHANG)
        if not found:
            os.kill(worker.pid, signal.SIGKILL)
            _, status = os.waitpid(worker.pid, 0)
        os.close(worker.ask)
        os.close(worker.say)
        return status

    def _start(self) -> None:
        """Forks a worker, and notes it before a signal can end this process."""
        held = signal.pthread_sigmask(signal.SIG_BLOCK, STOPPING)
        pipes: List[int] = []
        try:
            pipes += _pipe()
            pipes += _pipe()
            pid = os.fork()
            if pid == 0:
                _serve(self._work, pipes[0], pipes[3], held)
        except OSError:
            for it in pipes:
                os.close(it)
            raise
        else:
            for it in (pipes[0], pipes[3]):
                os.close(it)
            for it in (pipes[1], pipes[2]):
                os.set_blocking(it, False)
            self._workers.append(_Worker(pid, pipes[1], pipes[2]))
        finally:
            signal.pthread_sigmask(signal.SIG_SETMASK, held)


def _pipe() -> List[int]:
    """Opens a pipe whose ends aren't one of the descriptors 0 to 2, and returns its reading and its writing end."""
    low, ends = os.pipe(), []
    for it in low:
        ends.append(fcntl.fcntl(it, fcntl.F_DUPFD_CLOEXEC, 3))
        os.close(it)
    return ends


def _reason(status: int, seconds: float) -> str:
    """Words for how a process ended."""
    number = os.WTERMSIG(status) if os.WIFSIGNALED(status) else 0
    if number in (signal.SIGXCPU, signal.SIGPROF):
        return LATE.format(seconds)
    return DIED.format(number) if number else ENDED.format(os.WEXITSTATUS(status))


# In the worker.

def _serve(work: Callable[[Any], Any], asked: int, say: int, held: Set[Any]) -> NoReturn:
    """Answers each line that comes; this is all that a worker does. Never returns to the code that forked it."""
    try:
        _prepare((asked, say), held)
        with os.fdopen(asked, "rb") as lines:
            for line in lines:
                seconds, piece = json.loads(line)
                _limit(seconds)
                data = memoryview(_answer(work, piece))
                while data:
                    data = data[os.write(say, data):]
    finally:
        os._exit(1)


def _prepare(kept: Tuple[int, int], held: Set[Any]) -> None:
    """Closes all that was open but the two pipes, and sets the limits that hold for all pieces."""
    signal.signal(signal.SIGINT, signal.SIG_IGN)
    for it in (signal.SIGTERM, signal.SIGHUP, signal.SIGPIPE, signal.SIGPROF):
        signal.signal(it, signal.SIG_DFL)
    signal.pthread_sigmask(signal.SIG_SETMASK, held - set(STOPPING))
    for name in os.listdir("/dev/fd"):
        if int(name) not in kept and int(name) > 2:
            try:
                os.close(int(name))
            except OSError:
                pass
    nothing = os.open(os.devnull, os.O_RDWR)
    for number in range(3):
        os.dup2(nothing, number)
    for name, most in (("RLIMIT_AS", MEMORY), ("RLIMIT_FSIZE", 0), ("RLIMIT_CORE", 0)):
        hard = resource.getrlimit(getattr(resource, name))[1]
        most = most if hard == resource.RLIM_INFINITY else min(most, hard)
        resource.setrlimit(getattr(resource, name), (most, most))
    sys.dont_write_bytecode = True
    gc.disable()


def _limit(seconds: float) -> None:
    """Lets the next piece take so much processor time: a timer is exact, and a limit of the system holds if it fails."""
    used = resource.getrusage(resource.RUSAGE_SELF)
    hard = resource.getrlimit(resource.RLIMIT_CPU)[1]
    soft = math.ceil(used.ru_utime + used.ru_stime + seconds) + 1
    resource.setrlimit(resource.RLIMIT_CPU, (soft if hard == resource.RLIM_INFINITY else min(soft, hard), hard))
    signal.setitimer(signal.ITIMER_PROF, seconds)


def _answer(work: Callable[[Any], Any], piece: Any) -> bytes:
    """The line with the answer to a piece, and "" or a clause why there is none."""
    try:
        data = json.dumps([work(piece), ""], allow_nan=False).encode("ascii") + b"\n"
        return data if len(data) <= LARGEST_ANSWER else json.dumps([None, TOO_LARGE]).encode("ascii") + b"\n"
    except MemoryError:
        return json.dumps([None, f"it took more than {MEMORY:,} bytes of memory"]).encode("ascii") + b"\n"
    except (RecursionError, ValueError, TypeError, LookupError, AttributeError, ArithmeticError, OSError) as error:
        return json.dumps([None, f"reading it failed ({type(error).__name__})"]).encode("ascii") + b"\n"
