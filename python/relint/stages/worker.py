"""What a worker does with a piece of work. Pieces and answers are values of JSON; `do` in a piece says what is to be done.

The pipeline makes one `Worker` before it forks: `Pool(jobs, Worker(folders).work, deadline)`; files are read only below
`folders`. The parent needs none of the forms here: `across.look` and `across.across` make the pieces and read the answers.
Each piece may also have `seconds`, the processor time that it may take, if that is less than the pool's own.

look      {"do": "look", "path": P, "wanted": [[line, column, call], ..]}, and optionally "data": the bytes of the file as
          Latin-1 (for standard input, an earlier commit or an editor; nothing is read then), "plain": true (nothing is parsed,
          for a file on which the parser died), "told": true (others say the places: what no call of re takes isn't shown)
       -> {"why": "" or a clause why the file can't be read, "parsed": true, "ignores": [[line, null or ["RLT100"]], ..],
          "rows": [[SITE or null, [[number, line], ..], USES], ..]}, a row for each that is wanted
mentions  {"do": "mentions", "paths": [P, ..], "root": R, "asked": [[home, name, kind], ..]}
       -> [[number of the path, number in `asked`, clause], ..]: the files that may reach what has this name in the file
          `home`; with a clause, they aren't to be parsed, and it says why nothing is known then
uses      {"do": "uses", "path": P, "asked": [[home, name, kind], ..]}
       -> [USES, ..], one for each that is asked
sift      {"do": "sift", "paths": [P, ..], "wide": false, "rows": [rows of takers, ..]}
       -> [number of the path, ..]: the files whose bytes show that they may have a pattern that the program doesn't read
places    {"do": "places", "path": P, "open": [[line, column], ..], "wide": false, "rows": [..]}, and optionally "data"; `open`
          are the places of literals that aren't judged
       -> {"why": "" or a clause, "left": [number of a cell that can't be read, ..], "rows": [[place, call, mode or "" for that
          of the options, SITE with six more fields, needs, lines], ..]}
changes   {"do": "changes", "paths": [P, ..], "needs": [[kind, path, name, owner, is_list], ..]}
       -> [number in `needs`, ..]: what these files may bind again or change

SITE: [[is_bytes, pattern], flags or null, [[literal, start, end], ..], offsets, function, in_tests].
USES: [[[method, line, position, sees, repeated], ..], is_read, [[name, kind], ..], lost]; the kinds are those of `uses.Name`.
"""
from __future__ import annotations

from typing import Any, Callable, Dict, List, Mapping, Sequence, Set

from ..base.model import Place, Site
from ..base.safe import FolderReader, OpenError
from ..code.elsewhere import Asked, Mentions, imported_words, is_near, uses_in
from ..code.fold import Folder, Sources
from ..code.places import Found, NotebookError, Takers, notebook, own_rows, places_in, takers_of
from ..code.source import LONGEST_LINE, MOST_LINES, SourceError, Unit
from ..code.texts import Need
from ..code.uses import LocalUses, uses_at
from ..code.writes import Changes

# The trees that are kept, and how many bytes of source they have in all at most; the largest file that is searched for names.
MOST_KEPT, MOST_BYTES, LARGEST_SEARCHED = 64, 2 << 20, 64 << 20


class Worker:
    """Reads files below some folders, keeps the trees of the last ones, and does pieces of work with them."""

    def __init__(self, folders: Sequence[str]) -> None:
        self._reader = FolderReader(folders)
        self._kept: Dict[str, Unit] = {}
        self._size = 0
        self._imports: Dict[str, Set[bytes]] = {}
        self._does: Dict[str, Callable[[Mapping[str, Any]], Any]] = {
            "look": self._look, "mentions": self._mentions, "uses": self._uses,
            "sift": self._sift, "places": self._places, "changes": self._changes,
        }
        self._tables: Dict[str, Takers] = {}
        self._folder = Folder(Sources(self.unit))

    def work(self, piece: Mapping[str, Any]) -> Any:
        """Returns the answer to a piece. Raises KeyError if no piece has this form."""
        return self._does[piece["do"]](piece)

    def unit(self, path: str) -> Unit:
        """Returns the source at a path, read and parsed at most once while it is kept. Raises OpenError and SourceError."""
        found = self._kept.pop(path, None)
        if found is None:
            found = Unit(path, self._reader.read(path))
            self._size += len(found.text)
        self._kept[path] = found
        while len(self._kept) > 1 and (len(self._kept) > MOST_KEPT or self._size > MOST_BYTES):
            self._size -= len(self._kept.pop(next(iter(self._kept))).text)
        return found

    def _look(self, piece: Mapping[str, Any]) -> Any:
        """The sites at some places of a file, with their uses in the file, and the comments that hide findings."""
        try:
            given = piece.get("data")
            unit = self.unit(piece["path"]) if given is None else Unit(piece["path"], given.encode("latin-1"))
        except (OpenError, SourceError) as error:
            return {"why": str(error), "parsed": False, "ignores": [], "rows": []}
        if piece.get("plain"):
            unit.leave_unparsed()
        rows: List[Any] = []
        for line, column, call in piece["wanted"]:
            place = Place(line, column)
            site = unit.site(place, call)
            if piece.get("told") and (site is None or not unit.takes(call, site)):
                rows.append([None, [], _uses(LocalUses(lost="no pattern is there"))])
                continue
            rows.append([_site(site), unit.lines_to_show(place, site), _uses(uses_at(unit, place, call))])
        return {"why": "", "parsed": not rows or unit.is_parsed, "ignores": list(unit.ignores().items()), "rows": rows}

    def _mentions(self, piece: Mapping[str, Any]) -> Any:
        """Which files may reach what is asked for."""
        asked = [Asked(*it) for it in piece["asked"]]
        mentions = Mentions(asked, piece["root"], self._words)
        rows: List[Any] = []
        for number, path in enumerate(piece["paths"]):
            try:
                data = self._reader.read(path, LARGEST_SEARCHED)
            except OpenError as error:
                rows += [[number, at, f"{path} can't be read: {error}"] for at in range(len(asked))]
                continue
            rows += [[number, at, why] for at, why in mentions.of(path, data)]
        return rows

    def _uses(self, piece: Mapping[str, Any]) -> Any:
        """The uses in a file of what is asked for."""
        try:
            unit = self.unit(piece["path"])
        except (OpenError, SourceError) as error:
            return [_uses(LocalUses(lost=f"{error}, and it may use it"))] * len(piece["asked"])
        words = imported_words(unit.text.encode("utf-8", "surrogatepass"))
        asked = [Asked(*it) for it in piece["asked"]]
        return [_uses(uses_in(unit, it, is_near(unit.path, words, it.home, self._words(it.home)))) for it in asked]

    def _words(self, path: str) -> Set[bytes]:
        """The words of the imports of a file, which are kept; none if it can't be read."""
        if path not in self._imports:
            try:
                self._imports[path] = imported_words(self._reader.read(path)) if path else set()
            except OpenError:
                self._imports[path] = set()
        return self._imports[path]

    def _takers(self, piece: Mapping[str, Any]) -> Takers:
        """The table of takers of a piece, which is kept."""
        key = repr((piece["wide"], piece["rows"]))
        if key not in self._tables:
            self._tables[key] = Takers(takers_of([*own_rows(), *piece["rows"]]), piece["wide"])
        return self._tables[key]

    def _sift(self, piece: Mapping[str, Any]) -> Any:
        """Which files may have a pattern that the program doesn't read."""
        takers = self._takers(piece)
        found: List[int] = []
        for number, path in enumerate(piece["paths"]):
            try:
                if takers.may_take(self._reader.read(path)):
                    found.append(number)
            except OpenError:
                continue
        return found

    def _places(self, piece: Mapping[str, Any]) -> Any:
        """The places of a file that take a pattern that is known, and that the program doesn't read."""
        path, given, book = piece["path"], piece.get("data"), None
        try:
            if path.endswith(".ipynb"):
                book = notebook(self._reader.read(path, LARGEST_SEARCHED))
                unit = Unit(path, book.text.encode("utf-8", "surrogatepass"))
            else:
                unit = self.unit(path) if given is None else Unit(path, given.encode("latin-1"))
            found = places_in(unit, self._takers(piece), self._folder)
        except (OpenError, SourceError, NotebookError) as error:
            return {"why": str(error), "left": [], "rows": []}
        wanted = {Place(*it) for it in piece["open"]}
        rows = []
        for it in found:
            if it.site is not None and (not it.is_literal or it.place in wanted or book is not None):
                lines = [(number, unit.line(number)) for number in range(it.place.line, it.end.line + 1)]
                lines = [(number, text) for number, text in lines if len(text) <= LONGEST_LINE][:MOST_LINES]
                if book is not None:
                    it, lines = book.in_cell(it, path), [(book.origin(number)[1], text) for number, text in lines]
                rows.append(_found(it, lines))
        return {"why": "", "left": list(book.left_out) if book is not None else [], "rows": rows}

    def _changes(self, piece: Mapping[str, Any]) -> Any:
        """Which names files may bind again."""
        changes = Changes([Need(*it) for it in piece["needs"]])
        found: Set[int] = set()
        for path in piece["paths"]:
            try:
                at = changes.candidates(path, self._reader.read(path, LARGEST_SEARCHED))
                found.update(changes.of(self.unit(path), at) if at else ())
            except OpenError:
                continue
            except SourceError:
                found.update(at)
        return sorted(found)


def _found(found: Found, lines: Any) -> Any:
    """A place as JSON."""
    site = found.site
    assert site is not None
    more = [[found.end.line, found.end.column], site.taker, [[it.name, it.path, it.line] for it in site.holders], site.notes,
            site.stands_in, site.cell]
    place = [found.place.line, found.place.column]
    return [place, found.call, found.mode, [*_site(site), *more], found.needs, lines]


def _site(site: Any) -> Any:
    """A site as JSON."""
    if not isinstance(site, Site):
        return None
    is_bytes = isinstance(site.pattern, bytes)
    text = site.pattern.decode("latin-1") if isinstance(site.pattern, bytes) else site.pattern
    literals = [[it.text, it.start, it.end] for it in site.literals]
    return [[is_bytes, text], site.flags, literals, site.offsets, site.function, site.in_tests]


def _uses(found: LocalUses) -> Any:
    """Uses as JSON, without the path, which is that of the piece."""
    uses = [[it.method, it.line, it.position, it.sees, it.repeated] for it in found.uses]
    return [uses, found.is_read, found.names, found.lost]
