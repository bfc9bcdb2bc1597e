"""The part `book`: the book of definitions is made, and every link in it leads to a definition."""
from __future__ import annotations

import tempfile
from html.parser import HTMLParser
from pathlib import Path
from typing import Dict, List, Optional, Set, Tuple

from runner.programs import TREE, Program, run_command
from runner.results import Failed, Result

_SECONDS = 3600


class _Reader(HTMLParser):
    """Collects the links and the anchors of a page."""

    def __init__(self) -> None:
        super().__init__()
        self.links: List[str] = []
        self.anchors: Set[str] = set()

    def handle_starttag(self, tag: str, attributes: List[Tuple[str, Optional[str]]]) -> None:
        for name, value in attributes:
            if name == "href" and value:
                self.links.append(value)
            elif name == "id" and value:
                if value in self.anchors:
                    raise Failed("the anchor %s stands twice" % value)
                self.anchors.add(value)


def _read(folder: Path) -> Dict[str, _Reader]:
    """The links and anchors of each page, by its name."""
    pages: Dict[str, _Reader] = {}
    for path in sorted(folder.glob("*.html")):
        pages[path.name] = _Reader()
        pages[path.name].feed(path.read_text(encoding="utf-8"))
    return pages


def _follows(pages: Dict[str, _Reader]) -> None:
    for name, page in pages.items():
        for link in page.links:
            file, _, anchor = link.partition("#")
            other = pages.get(file or name)
            if other is None or (anchor and anchor not in other.anchors):
                raise Failed("%s has a link to %s, which isn't there" % (name, link))


def _has_the_contracts(pages: Dict[str, _Reader]) -> None:
    found = {anchor for page in pages.values() for anchor in page.anchors}
    for wanted in ("relint_main.relint_main", "ask_main.ask_main", "Rattle.rl_pairs.specs.RightVerdict.RightVerdict"):
        if wanted not in found:
            raise Failed("the book lacks %s" % wanted)


def run(program: Program) -> Result:
    """Makes the book, and follows its links."""
    result = Result()
    with tempfile.TemporaryDirectory() as place:
        folder = Path(place) / "book"
        made = run_command([str(TREE / "tools" / "reached"), "--book", str(folder)], TREE, seconds=_SECONDS)

        def is_made() -> None:
            if made.status or made.stderr or not (folder / "index.html").is_file():
                raise Failed("tools/reached ends with status %d: %s" % (made.status, made.stderr))

        result.take("made", is_made)
        pages = _read(folder)
        result.take("links", lambda: _follows(pages))
        result.take("contracts", lambda: _has_the_contracts(pages))
    return result
