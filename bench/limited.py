"""Gives up a call that takes too much processor time."""
from __future__ import annotations

import signal
from types import FrameType
from typing import Callable, Optional, TypeVar

Result = TypeVar("Result")


class GivenUp(BaseException):
    """Raised in a call that takes too long. It isn't an Exception, so that `except Exception` doesn't catch it."""


def _give_up(_number: int, _frame: Optional[FrameType]) -> None:
    """Raises GivenUp; this is the handler of the timer's signal."""
    raise GivenUp


def limited(seconds: float, call: Callable[[], Result]) -> Result:
    """Returns what `call` returns. Raises GivenUp if it takes more than `seconds` of this process's processor time.

    If `seconds` is 0, there is no limit. Has to be called in the main thread. A step in C code is given up only at its end.
    The handler of SIGPROF is replaced.
    """
    signal.signal(signal.SIGPROF, _give_up)
    try:
        signal.setitimer(signal.ITIMER_PROF, seconds)
        return call()
    finally:
        signal.setitimer(signal.ITIMER_PROF, 0)
