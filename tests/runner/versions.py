"""The part `versions`: the version number is the same everywhere; the man page and the pictures are of this tree."""
from __future__ import annotations

import re
import shutil
from functools import partial
from pathlib import Path
from typing import Dict, List, Optional

from runner import scratch
from runner.programs import TREE, Program, run_command
from runner.results import Failed, Result, Skipped

_NUMBER = r"v?([0-9]+\.[0-9]+(?:\.[0-9]+)?[0-9A-Za-z.+-]*)"
# where a version number may stand, and the first match that is it
_PLACES = {
    "VERSION": re.compile(r"\A%s\s*\Z" % _NUMBER),
    "release/INFO": re.compile(r"^version %s$" % _NUMBER, re.MULTILINE),
    "pyproject.toml": re.compile(r"^version\s*=\s*[\"']%s[\"']" % _NUMBER, re.MULTILINE),
    "CHANGELOG.md": re.compile(r"^##[^#\n]*?\[?%s\b" % _NUMBER, re.MULTILINE),
    "python/relint/__init__.py": re.compile(r"^__version__\s*=\s*[\"']%s[\"']" % _NUMBER, re.MULTILINE),
}
_TITLE = re.compile(r"^\.(?:TH|Os)\b.*?\b%s" % _NUMBER, re.MULTILINE)
_REVISION = re.compile(r"\brev: *v([0-9]+\.[0-9]+\.[0-9]+)\b")


def _first(pattern: "re.Pattern[str]", path: Path) -> Optional[str]:
    found = pattern.search((TREE / path).read_text(encoding="utf-8"))
    return found.group(1) if found else None


def man_pages() -> List[Path]:
    """The man pages of the repository."""
    return [path for path in scratch.files_of_tree() if re.fullmatch(r"relint[a-z-]*\.1", path.name)]


def versions() -> Dict[str, str]:
    """The version number by the place where it stands."""
    found: Dict[str, Optional[str]] = {}
    for name, pattern in _PLACES.items():
        if (TREE / name).is_file():
            found[name] = _first(pattern, Path(name))
    for path in man_pages():
        found[str(path)] = _first(_TITLE, path)
    for path in scratch.files_of_tree():
        if path.suffix in (".md", ".yaml", ".yml") and path.parts[0] not in ("crates", "tests"):
            found[str(path) + " (rev)"] = _first(_REVISION, path)
    return {place: number for place, number in found.items() if number is not None}


def _agreement(result: Result) -> None:
    found = versions()
    if len(found) < 2:
        result.skip("the version number", "it stands in %s alone" % "".join(found) if found else "it stands nowhere")
        return
    first = next(iter(found))
    for place, number in list(found.items())[1:]:
        if number == found[first]:
            result.passed += 1
        else:
            result.fail(place, "the version is %s, and %s in %s" % (number, found[first], first))


def _man_page(path: Path) -> None:
    if shutil.which("mandoc"):
        answer = run_command(["mandoc", "-T", "lint", "-W", "warning", str(path)], TREE, together=True)
    elif shutil.which("groff"):
        answer = run_command(["groff", "-man", "-ww", "-z", "-Tutf8", str(path)], TREE, together=True)
    else:
        raise Skipped("neither mandoc nor groff is installed")
    if answer.status != 0 or answer.stdout.strip():
        raise Failed("the man page isn't well formed: " + answer.stdout)


def _is_of_this_tree(tool: str) -> None:
    answer = run_command([str(TREE / "tools" / tool), "--check"], TREE, together=True)
    if answer.status != 0:
        raise Failed(answer.stdout)


def run(program: Program) -> Result:
    """Compares the version numbers, has the man pages read, and compares what is made from other files."""
    result = Result()
    _agreement(result)
    result.take("docs/relint.1 is made from docs/RELINT.md", partial(_is_of_this_tree, "manpage"))
    result.take("the pictures of docs/ARCHITECTURE.md are of this tree", partial(_is_of_this_tree, "pictures"))
    for path in man_pages():
        result.take(str(path), partial(_man_page, path))
    return result
