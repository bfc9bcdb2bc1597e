"""What the stages of a run share."""
from __future__ import annotations

import time
from dataclasses import dataclass, field
from typing import Any, Dict, List, Mapping, Optional, Sequence, Tuple

from ..base.model import NotLooked
from ..base.safe import FolderReader, OpenError
from ..files import Chosen, Earlier
from ..options import Options
from .ask import Asker
from .engine import Progress


@dataclass
class Run:
    """A run: the options, the files, the workers, the service, and the time of `time.monotonic` at which all of it ends.

    `pool` is a `stages.pool.Pool`. `earlier` is the commit of --baseline-commit, or None, and `scratch` a folder for files of
    it. `steps_a_second` is the rate of this machine, if it was measured. Stages add what they couldn't look at to
    `not_looked`, what has to be said to `notes`, and `late` is set once something wasn't done in time. `ignores` has the
    ignore comments of each file that was read: for each line the rules that it names, or None for all. `files` is how many
    files were to be judged.
    """

    options: Options
    chosen: Chosen
    pool: Any
    asker: Asker
    deadline: float
    begun: float = field(default_factory=time.monotonic)
    earlier: Optional[Earlier] = None
    scratch: str = ""
    progress: Optional[Progress] = None
    steps_a_second: Optional[int] = None
    late: bool = False
    files: int = 0
    not_looked: List[NotLooked] = field(default_factory=list)
    notes: List[str] = field(default_factory=list)
    ignores: Dict[str, Mapping[int, Optional[Sequence[str]]]] = field(default_factory=dict)
    unused_ignores: Tuple[Tuple[str, int], ...] = ()
    added_accepts: Tuple[Tuple[str, int, str], ...] = ()
    _reader: Optional[FolderReader] = None

    def is_late(self) -> bool:
        """Returns whether the time is over, and notes it."""
        self.late = self.late or time.monotonic() >= self.deadline
        return self.late

    def data(self, path: str) -> bytes:
        """Returns the bytes of a file of the run, or b"" if it can't be read."""
        if self.chosen.data is not None:
            return self.chosen.data
        if self._reader is None:
            self._reader = FolderReader(self.chosen.folders)
        try:
            return self._reader.read(path)
        except OpenError:
            return b""

    def close(self) -> None:
        """Closes the folders that were opened."""
        if self._reader is not None:
            self._reader.close()
