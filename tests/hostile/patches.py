"""What `rlt fix --diff` writes is given to `patch` and to `git apply`: only the files that were named may change."""
from __future__ import annotations

import os
import shutil
import subprocess
from pathlib import Path
from typing import Dict, List, Sequence, Tuple

from hostile import tree
from hostile.runs import SHOWN, Place
from hostile.watch import Run, Watch

APPLIERS: Dict[str, List[str]] = {"patch": ["patch", "-p1", "-f", "-s"], "git": ["git", "apply", "-p1", "--unsafe-paths"]}


def _paths(made: tree.Repository) -> List[str]:
    """The sources whose names could forge a header, and one that is a link."""
    found = ["finding.py"] + ["names/" + name for name in tree.NAMES]
    for folder, _, names in os.walk(str(made.top / "patch")):
        found += [os.path.relpath(os.path.join(folder, name), str(made.top)) for name in names]
    # (what lies behind a link isn't named: git takes no part of a patch that has it)
    return found + ["link_out.py"]


def _is_allowed(path: str, named: Sequence[str]) -> bool:
    """Whether a patch may change a path: a source that was named, or a folder above one, which a patch may make."""
    return path in named or any(it.startswith(path + "/") for it in named) or path.endswith((".orig", ".rej"))


def judged(watch: Watch, place: Place, names: Sequence[str]) -> List[Tuple[str, List[str]]]:
    """Applies what rlt fix writes over every source by each of these programs, and says what changed that mustn't."""
    paths = _paths(watch.made)
    run = Run("rlt fix --diff", place.rlt("fix", "--diff", "--", *paths), SHOWN, diff=True)
    diff = watch.run(run).out.encode("utf-8", "surrogateescape")
    return [("rlt fix --diff, given to " + name, _complaints(watch, name, diff, paths)) for name in names]


def _complaints(watch: Watch, name: str, diff: bytes, paths: Sequence[str]) -> List[str]:
    copy = watch.made.scratch / ("applied-" + name)
    _copy(watch.made.top, copy)
    outside = tree.snapshot(watch.made.outside)
    before = tree.snapshot(copy)
    subprocess.run(APPLIERS[name], cwd=str(copy), input=diff, env=watch.environment, stdout=subprocess.DEVNULL,
                   stderr=subprocess.DEVNULL, check=False)
    changed = tree.changes(before, tree.snapshot(copy))
    found = ["it changed %r" % path for path in changed if not _is_allowed(path, paths)]
    found += ["it changed %r outside" % path for path in tree.changes(outside, tree.snapshot(watch.made.outside))]
    if "finding.py" not in changed:
        found.append("it didn't change finding.py: " + repr(diff[:300]))
    return found


def _copy(top: Path, copy: Path) -> None:
    """A copy of what git would give of the repository, with a folder of hooks."""
    left_out = shutil.ignore_patterns("fifo.py", "socket.py", "locked", "deep", "objects")
    shutil.copytree(str(top), str(copy), symlinks=True, ignore=left_out)
    shutil.rmtree(str(copy / ".git"))
    (copy / ".git" / "hooks").mkdir(parents=True)
