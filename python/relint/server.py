"""`rlt server`: a language server on standard input and output, which judges the texts that an editor has open.

`Editor` answers in values of the protocol: a position has a `line` and a `character`, which count from 0, the latter in units
of UTF-16; a range has a `start` and an `end`. The server has no threads: while nothing comes in, it does what is due.
"""
from __future__ import annotations

import importlib
import json
import logging
import os
import select
import signal
import sys
import time
import urllib.parse
from bisect import bisect_right
from contextlib import closing, suppress
from pathlib import Path
from typing import Any, Callable, Dict, Iterator, List, Mapping, Optional, Sequence, Tuple

from .base.model import NEW, OTHER, UNUSED, WARNED, Finding
from .base.safe import is_below, visible
from .base.words import address_of, class_word, danger, explained, offer_words, outcome, pages, rule_of, rule_text
from .code.source import LINE_END
from .mend import edits
from .options import Options, OptionsError, version
from .show.terminal import body_lines, other_words, painter
from .stages import accept as accepting
from .stages import buffer

ERROR, WARNING, INFORMATION, HINT = 1, 2, 3, 4
ACCEPT, EXPLAIN, FIX_KIND = "rlt.accept", "rlt.explain", "quickfix"
REASON = "accepted in the editor"
# How long nothing must be typed before a text is judged, and how many texts are kept.
SECONDS_OF_REST, MOST_KEPT = 0.3, 16
MISSED = "{}; without it, no class as used, no text and no fix is known"
MISSING = "rlt server needs the package python-lsp-jsonrpc (Debian: python3-pylsp-jsonrpc)"
Json = Dict[str, Any]


class Lines:
    """The lines of a text, to go from offsets to positions and back."""

    def __init__(self, text: str) -> None:
        self.text = text
        self.starts = [0] + [it.end() for it in LINE_END.finditer(text)]

    def position(self, offset: int) -> Json:
        line = bisect_right(self.starts, offset) - 1
        front = self.text[self.starts[line]:offset]
        return {"line": line, "character": len(front.encode("utf-16-le", "surrogatepass")) // 2}

    def offset(self, position: Mapping[str, int]) -> int:
        """Returns the offset of a position; one behind the end of its line counts as that end."""
        line = position["line"]
        if line >= len(self.starts):
            return len(self.text)
        end = self.starts[line + 1] if line + 1 < len(self.starts) else len(self.text)
        row = self.text[self.starts[line]:end].rstrip("\r\n")
        units = row.encode("utf-16-le", "surrogatepass")[:2 * position["character"]]
        return self.starts[line] + len(units.decode("utf-16-le", "replace"))


class Kept:
    """What was found in a text; `opened` is None without an answer, and then `failure` says why, or "" for one left out."""

    def __init__(self, text: str, opened: Optional[buffer.Opened], failure: str = "") -> None:
        self.text, self.opened, self.failure = text, opened, failure
        self.lines, self.front = Lines(text), int(text.startswith("\ufeff"))

    def range_of(self, it: Finding) -> Json:
        """Returns the range of a pattern: its literals, or else the rest of the line from its place."""
        number = min(it.place.line, len(self.lines.starts))
        first = self.lines.starts[number - 1] + it.place.column - 1 + (self.front if number == 1 else 0)
        rest = self.text[first:].splitlines()[:1] if it.entry.call else []
        last = first + len(rest[0].rstrip()) if rest else first
        if it.site is not None and it.site.literals:
            first, last = it.site.literals[0].start + self.front, it.site.literals[-1].end + self.front
        return {"start": self.lines.position(first), "end": self.lines.position(last)}

    def found(self) -> List[Finding]:
        return self.opened.findings if self.opened is not None else []


class Editor:
    """Answers about texts that are open, each of which has a URI; a text is judged again only if it changed."""

    def __init__(self, words: Sequence[str] = ()) -> None:
        self.judge = buffer.Judge(words, "accept")
        self._kept: Dict[str, Kept] = {}

    def forget(self) -> None:
        """Forgets what was found, since the configuration, the accepted file or other sources may have changed."""
        self._kept.clear()
        self.judge.forget()

    def kept(self, uri: str, text: str) -> Kept:
        """Returns what is found in a text, which is judged unless it was judged last for this URI."""
        kept = self._kept.pop(uri, None)
        if kept is None or kept.text != text:
            try:
                kept = Kept(text, self.judge.judged(text, path_of(uri)))
            except buffer.NotJudged as error:
                kept = Kept(text, None, str(error))
        self._kept[uri] = kept
        while len(self._kept) > MOST_KEPT:
            del self._kept[next(iter(self._kept))]
        return kept

    def diagnostics(self, uri: str, text: str) -> List[Json]:
        """Returns the diagnostics of a text: one at its start if it can't be judged, none if it is left out."""
        kept, start = self.kept(uri, text), {"line": 0, "character": 0}
        whole = {"range": {"start": start, "end": start}, "source": "rlt", "code": "RLT203"}
        said = [(ERROR, f"not judged: {kept.failure}")] if kept.failure else []
        if kept.opened is not None:
            said += [(INFORMATION, f"not judged: {it}") for it in kept.opened.lost]
            said += [(INFORMATION, MISSED.format(it)) for it in (kept.opened.run.asker.missing,) if it]
        found = [{**whole, "severity": level, "message": visible(words)} for level, words in said]
        return found + [one for it in kept.found() for one in _diagnostic(kept, it)]

    def hover(self, uri: str, text: str, position: Json) -> List[str]:
        """Returns lines about the pattern at a position: classes, danger, ways, a text and a fix; none without a pattern."""
        kept = self.kept(uri, text)
        for at in _numbers_before(kept, position):
            assert kept.opened is not None
            if _key(position) < _key(kept.range_of(buffer.look(kept.opened, at))["end"]):
                buffer.explained(kept.opened, at)
                return list(_about(buffer.mended(kept.opened, at), kept.opened.run.steps_a_second))
        return []

    def actions(self, uri: str, text: str, wanted: Json) -> List[Json]:
        """Returns actions for the findings that a range touches: to fix them, to accept them, and to explain their rules."""
        kept, found, until = self.kept(uri, text), [], time.monotonic() + buffer.SECONDS_OF_FIXES
        for at, it in enumerate(kept.found()):
            where, marks = kept.range_of(it), _diagnostic(kept, it)
            if marks and _key(where["start"]) <= _key(wanted["end"]) and _key(wanted["start"]) <= _key(where["end"]):
                assert kept.opened is not None
                it = buffer.mended(kept.opened, at) if time.monotonic() < until else it
                found += [{**action, "kind": FIX_KIND, "diagnostics": marks} for action in _actions(kept, it, uri)]
        return found

    def accept(self, uri: str, text: str, place: Sequence[int], reason: str) -> str:
        """Writes the finding at a line and a column into the accepted file; returns what was done. Raises AcceptError."""
        kept = self.kept(uri, text)
        it = next((it for it in kept.found() if [it.place.line, it.place.column] == list(place)), None)
        if kept.opened is None or it is None or not accepting.can_be_accepted(it, kept.opened.run.options):
            raise accepting.AcceptError("there is no finding any more")
        options = kept.opened.run.options
        before = accepting.load(options)
        moved = [row for one, row in accepting.old_entries(before, kept.opened.findings, options) if one is it]
        file = accepting.with_finding(before, it, accepting.checked_reason(reason), *moved)
        lost = accepting.write(file, options)
        self.forget()
        place_of_it = f"{visible(it.entry.path)}:{it.place.line}"
        return "; ".join([f"{place_of_it}: {accepting.class_words(it)}, accepted in {visible(file.file)}", *lost])


def path_of(uri: str) -> str:
    """Returns the path of the file with a URI, from the current folder if it lies below it; else untitled.py."""
    parts = urllib.parse.urlsplit(uri)
    path = urllib.parse.unquote(parts.path, errors="surrogateescape") if parts.scheme == "file" else "untitled.py"
    return os.path.relpath(path) if is_below(path, [os.curdir]) else path


def _key(position: Mapping[str, int]) -> Tuple[int, int]:
    """A position as a pair, which can be compared."""
    return position["line"], position["character"]


def _diagnostic(kept: Kept, it: Finding) -> List[Json]:
    """The diagnostic of a finding, or of what isn't judged, in a list; none for what needn't be shown."""
    assert kept.opened is not None
    run = kept.opened.run
    if it.state in (NEW, WARNED):
        is_worst = it.verdict is not None and it.verdict.rank() == 1_000_000
        level, words = ERROR if is_worst else WARNING, danger(it, run.steps_a_second)
        level = level if it.state == NEW else INFORMATION
    elif it.state == UNUSED:
        level, words = HINT, other_words(it)
    elif it.state == OTHER and (it.verdict is None or it.is_open(run.options.max_degree)):
        level, words = INFORMATION, outcome(it)
    else:
        return []
    code = rule_of(it)
    shown = {"range": kept.range_of(it), "severity": level, "code": code, "source": "rlt", "message": visible(words)}
    address = address_of(code)
    return [{**shown, "codeDescription": {"href": address}} if address else shown]


def _numbers_before(kept: Kept, position: Json) -> List[int]:
    """The numbers of the last two findings that begin before a position, and so may be at it."""
    found = kept.found()
    before = [at for at, it in enumerate(found) if it.entry.call is not None
              and _key(kept.range_of(it)["start"]) <= _key(position)]
    return sorted(before, key=lambda at: found[at].place, reverse=True)[:2]


def _about(it: Finding, steps_a_second: Optional[int]) -> Iterator[str]:
    """Yields the lines about a pattern."""
    if it.by_mode:
        yield ", ".join(f"{class_word(verdict)} in {mode}" for mode, verdict in it.by_mode.items())
    is_shown = it.state in (NEW, WARNED)
    yield f"{rule_of(it)} {danger(it, steps_a_second)}" if is_shown else other_words(it)
    if is_shown or it.state == UNUSED:
        yield from body_lines(it, painter(Options(color="never")))


def _actions(kept: Kept, it: Finding, uri: str) -> Iterator[Json]:
    """Yields the actions for a finding."""
    assert kept.opened is not None
    offer, code = edits.chosen(it), rule_of(it)
    if offer is not None and it.site is not None:
        with suppress(edits.Unchangeable):
            made = [{"range": {"start": kept.lines.position(one.start + kept.front), "end": kept.lines.position(
                one.end + kept.front)}, "newText": one.text} for one in edits.edits(it.site, offer.pattern)]
            title = f"rlt: fix: {visible(offer.literal)}    {offer_words(offer)}"
            yield {"title": title, "edit": {"changes": {uri: made}}, "isPreferred": True}
    if accepting.can_be_accepted(it, kept.opened.run.options) and accepting.key_of(it) is not None:
        title = f"rlt: accept with a reason ({accepting.class_of(it)})"
        yield {"title": title, "command": {"title": title, "command": ACCEPT,
                                           "arguments": [uri, it.place.line, it.place.column]}}
    title = f"rlt: explain {code}"
    yield {"title": title, "command": {"title": title, "command": EXPLAIN, "arguments": [code]}}


# ---- the server

class Input:
    """Standard input as the package reads it. While nothing comes, `idle` is called, which returns how long it can wait."""

    def __init__(self, file: int, idle: Callable[[], Optional[float]]) -> None:
        """Takes the descriptor, and what to do while nothing comes."""
        self._file, self._idle, self._data = file, idle, bytearray()
        self.closed = False

    def readline(self) -> bytes:
        """Returns the next line, or b"" at the end."""
        while b"\n" not in self._data and self._more():
            pass
        return self.read(self._data.find(b"\n") + 1)

    def read(self, size: Optional[int]) -> bytes:
        """Returns the next `size` bytes, or fewer at the end."""
        while len(self._data) < (size or 0) and self._more():
            pass
        found = bytes(self._data[:size or 0])
        del self._data[:size or 0]
        return found

    def _more(self) -> bool:
        """Waits for more bytes; returns whether some came."""
        while not select.select([self._file], [], [], 0)[0]:
            select.select([self._file], [], [], self._idle())
        part = os.read(self._file, 1 << 16)
        self._data += part
        return bool(part)


class Server:
    """The texts that are open, and the methods of the protocol, by their names in `methods`."""

    def __init__(self, words: Sequence[str], write: Callable[[Json], None], package: Any) -> None:
        """Takes options of the command line, what writes a message, and the package that knows the form of messages."""
        self.editor, self.texts, self.due = Editor(words), {}, {}  # type: Editor, Dict[str, Tuple[str, Any]], Dict[str, float]
        self.input = Input(sys.stdin.fileno(), self.idle)
        self.is_shut = self.shows_documents = self.shows_code = False
        self.methods: Dict[str, Callable[[Any], Any]] = {
            "initialize": self.initialize, "initialized": lambda _: None, "shutdown": self.shutdown, "exit": self.exit,
            "textDocument/didOpen": self.opened, "textDocument/didChange": self.changed, "textDocument/didSave": self.saved,
            "textDocument/didClose": self.closed, "textDocument/hover": self.hover, "textDocument/codeAction": self.actions,
            "workspace/executeCommand": self.execute,
        }
        self.endpoint = package.Endpoint(self.methods, write)

    def idle(self) -> Optional[float]:
        """Judges the first text that is due; returns the seconds until the next one is, or None."""
        now = time.monotonic()
        uri = next((it for it in self.due if self.due[it] <= now), None)
        if uri is not None:
            del self.due[uri]
            text, number = self.texts[uri]
            found = self.editor.diagnostics(uri, text)
            more = {"version": number} if number is not None else {}
            self.endpoint.notify("textDocument/publishDiagnostics", {"uri": uri, "diagnostics": found, **more})
            return 0.0
        return max(0.0, min(self.due.values()) - now) if self.due else None

    def initialize(self, params: Json) -> Json:
        """Notes what the client can do, and goes to its folder; returns what the server can do."""
        can, root = params.get("capabilities") or {}, params.get("rootUri") or ""
        hover = ((can.get("textDocument") or {}).get("hover") or {}).get("contentFormat") or ["plaintext"]
        self.shows_code = hover[0] == "markdown"
        self.shows_documents = bool(((can.get("window") or {}).get("showDocument") or {}).get("support"))
        folder = path_of(root) if root.startswith("file:") else ""
        if folder and os.path.isdir(folder):
            os.chdir(folder)
        return {"serverInfo": {"name": "rlt", "version": version()}, "capabilities": {
            "textDocumentSync": {"openClose": True, "change": 2, "save": True}, "hoverProvider": True,
            "codeActionProvider": {"codeActionKinds": [FIX_KIND]}, "executeCommandProvider": {"commands": [ACCEPT, EXPLAIN]}}}

    def shutdown(self, _: Any) -> None:
        """Notes that the client is about to end the server."""
        self.is_shut = True

    def exit(self, _: Any) -> None:
        """Ends the server."""
        self.input.closed = True

    def opened(self, params: Json) -> None:
        """Takes a text that is open from now on."""
        given = params["textDocument"]
        self.texts[given["uri"]] = given["text"], given.get("version")
        self.due[given["uri"]] = time.monotonic()

    def changed(self, params: Json) -> None:
        """Changes a text, which is judged after a rest."""
        uri = params["textDocument"]["uri"]
        text = self.texts[uri][0]
        for it in params["contentChanges"]:
            if it.get("range"):
                lines = Lines(text)
                start, end = lines.offset(it["range"]["start"]), lines.offset(it["range"]["end"])
                text = text[:start] + it["text"] + text[end:]
            else:
                text = it["text"]
        self.texts[uri] = text, params["textDocument"].get("version")
        self.due[uri] = time.monotonic() + SECONDS_OF_REST

    def saved(self, params: Json) -> None:
        """Has all texts judged anew, as the file that was saved may change what is said of them."""
        self.editor.forget()
        self.due = {params["textDocument"]["uri"]: 0.0, **dict.fromkeys(self.texts, 0.0)}
        self.due = {uri: it for uri, it in self.due.items() if uri in self.texts}

    def closed(self, params: Json) -> None:
        """Forgets a text, and takes its diagnostics away."""
        uri = params["textDocument"]["uri"]
        self.texts.pop(uri, None)
        self.due.pop(uri, None)
        self.endpoint.notify("textDocument/publishDiagnostics", {"uri": uri, "diagnostics": []})

    def hover(self, params: Json) -> Optional[Json]:
        """Returns what is shown under the cursor, in a block of code if the client shows such."""
        uri = params["textDocument"]["uri"]
        lines = self.editor.hover(uri, self.texts[uri][0], params["position"]) if uri in self.texts else []
        return hover_of(lines, self.shows_code)

    def actions(self, params: Json) -> List[Json]:
        uri, only = params["textDocument"]["uri"], (params.get("context") or {}).get("only")
        if uri not in self.texts or only and FIX_KIND not in only:
            return []
        return self.editor.actions(uri, self.texts[uri][0], params["range"])

    def execute(self, params: Json) -> Optional[str]:
        """Does a command, and shows and returns what is said of it."""
        given = list(params.get("arguments") or [])
        if params["command"] == EXPLAIN:
            return self._explain(str(given[0]))
        uri, line, column, *reason = given
        try:
            said = self.editor.accept(uri, self.texts[uri][0], [line, column], str((reason or [REASON])[0] or REASON))
        except (accepting.AcceptError, KeyError) as error:
            self.endpoint.notify("window/showMessage", {"type": ERROR, "message": visible(f"rlt: not accepted: {error}")})
            return None
        self.due.update(dict.fromkeys(self.texts, 0.0))
        self.endpoint.notify("window/showMessage", {"type": INFORMATION, "message": f"rlt: {said}"})
        return said

    def _explain(self, code: str) -> Optional[str]:
        """Shows the page about a rule: in an editor's window, or else as a message; returns its text."""
        text, rule, page = explained(code), rule_text(code), pages().get("rules")
        if text is None:
            return None
        if self.shows_documents and rule is not None and page is not None:
            rows = Path(page).read_text(encoding="utf-8").splitlines()
            line = next((at for at, it in enumerate(rows) if it.startswith("## ") and it.endswith(rule[0])), 0)
            at = {"line": line, "character": 0}
            shown = {"uri": Path(page).resolve().as_uri(), "takeFocus": True, "selection": {"start": at, "end": at}}
            self.endpoint.request("window/showDocument", shown)
        else:
            self.endpoint.notify("window/showMessage", {"type": INFORMATION, "message": text})
        return text


def hover_of(lines: Sequence[str], as_code: bool) -> Optional[Json]:
    """Returns lines as a hover, or None if there are none; others may have written them, so nothing in them is marked up."""
    if not lines:
        return None
    fence = "```"
    while any(fence in it for it in lines):
        fence += "`"
    value = "\n".join([f"{fence}text", *lines, fence] if as_code else lines)
    return {"contents": {"kind": "markdown" if as_code else "plaintext", "value": value}}


def serve(options: Options) -> int:
    """Serves until the client ends; returns 1 if it ended without a word, else 0. Raises OptionsError without the package."""
    try:
        streams, endpoint = (importlib.import_module(f"pylsp_jsonrpc.{it}") for it in ("streams", "endpoint"))
    except ImportError as error:
        raise OptionsError(MISSING) from error
    # (what the package would write to standard error has words of others)
    logging.disable(logging.CRITICAL)
    # (so that nothing is left in private folders)
    signal.signal(signal.SIGTERM, lambda *_: sys.exit(128 + signal.SIGTERM))
    words = ["--no-config"] if options.no_config else [f"--config={os.path.abspath(options.config)}"] if options.config else []
    server = Server(words, streams.JsonRpcStreamWriter(sys.stdout.buffer).write, endpoint)
    with closing(server.editor.judge):
        streams.JsonRpcStreamReader(server.input).listen(server.endpoint.consume)
    return 0 if server.is_shut else 1


def answer_lines() -> None:
    """Answers lines of JSON on standard input, each the name of a method of `Editor` with its arguments, until they end."""
    editor = Editor()
    for it in sys.stdin:
        name, *given = json.loads(it)
        try:
            said = [getattr(editor, name)(*given), ""]
        except accepting.AcceptError as error:
            said = [None, visible(str(error))]
        print(json.dumps(said), flush=True)
