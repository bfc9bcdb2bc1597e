"""The plugin of python-lsp-server: findings while you type, what a pattern costs under the cursor, and actions.

That server has threads, so texts are judged by a new process, which has none; it answers as `rlt server` does. Only
python-lsp-server imports this module. A document is the server's object for an open text.
"""
from __future__ import annotations

import importlib
import json
import os
import subprocess
import sys
import threading
from typing import Any, Dict, List, Optional

from .base.words import explained
from .server import ACCEPT, EXPLAIN, REASON, hover_of

NAME = "relint"
CODE = "import sys; sys.path.insert(0, sys.argv[1]); from relint.server import answer_lines; answer_lines()"
PACKAGES = os.path.dirname(os.path.dirname(os.path.realpath(__file__)))
ENDED = "the process that judges it ended"


class Asked:
    """A process that answers, one question at a time; it is started for the first one, and anew after it ended."""

    def __init__(self) -> None:
        self._process: Optional["subprocess.Popen[bytes]"] = None
        self._lock = threading.Lock()

    def ask(self, *question: Any) -> Any:
        """Returns what a method of `server.Editor` answers to the arguments; raises RuntimeError with the reason."""
        with self._lock:
            if self._process is None or self._process.poll() is not None:
                words, pipe = [sys.executable, "-I", "-B", "-c", CODE, PACKAGES], subprocess.PIPE
                self._process = subprocess.Popen(words, stdin=pipe, stdout=pipe, stderr=subprocess.DEVNULL)
            assert self._process.stdin is not None and self._process.stdout is not None
            try:
                self._process.stdin.write(json.dumps(question).encode("ascii") + b"\n")
                self._process.stdin.flush()
                said, why = json.loads(self._process.stdout.readline())
            except (OSError, ValueError) as error:
                self._process.kill()
                self._process.wait()
                raise RuntimeError(ENDED) from error
        if why:
            raise RuntimeError(why)
        return said


ASKED = Asked()


def pylsp_settings(config: Any) -> Dict[str, Any]:
    """Returns the default settings of the plugin; the server itself reads `enabled`. `config` isn't used."""
    return {"plugins": {NAME: {"enabled": True}}}


def pylsp_lint(config: Any, workspace: Any, document: Any, is_saved: bool) -> List[Dict[str, Any]]:
    """Returns the diagnostics of a document, judged anew with `is_saved`. `config` and `workspace` aren't used."""
    if is_saved:
        ASKED.ask("forget")
    try:
        found: List[Dict[str, Any]] = ASKED.ask("diagnostics", document.uri, document.source)
        return found
    except RuntimeError as error:
        start = {"line": 0, "character": 0}
        return [{"range": {"start": start, "end": start}, "severity": 1, "source": "rlt", "message": f"not judged: {error}"}]


def pylsp_hover(config: Any, workspace: Any, document: Any, position: Dict[str, int]) -> Optional[Dict[str, Any]]:
    """Returns what is known of the pattern at a position, or None. `config` and `workspace` aren't used."""
    # (as plain text, since the server doesn't tell what the client shows)
    return hover_of(ASKED.ask("hover", document.uri, document.source, position), False)


def pylsp_code_actions(
    config: Any, workspace: Any, document: Any, range: Dict[str, Dict[str, int]], context: Any,
) -> List[Dict[str, Any]]:
    """Returns the actions for the findings in a range. `config`, `workspace` and `context` aren't used."""
    found: List[Dict[str, Any]] = ASKED.ask("actions", document.uri, document.source, range)
    return found


def pylsp_commands(config: Any, workspace: Any) -> List[str]:
    """Returns the names of the commands. `config` and `workspace` aren't used."""
    return [ACCEPT, EXPLAIN]


def pylsp_execute_command(config: Any, workspace: Any, command: str, arguments: List[Any]) -> Optional[str]:
    """Does a command, and shows and returns what is said of it; None for one of another plugin. `config` isn't used."""
    if command == EXPLAIN:
        said = explained(str(arguments[0])) or ""
    elif command == ACCEPT:
        uri, line, column, *reason = arguments
        try:
            text = workspace.get_document(uri).source
            said = ASKED.ask("accept", uri, text, [line, column], str((reason or [REASON])[0] or REASON))
        except RuntimeError as error:
            said = f"not accepted: {error}"
    else:
        return None
    workspace.show_message(f"rlt: {said}")
    return said


def _announce() -> None:
    """Marks the functions that the server calls as its hooks. Raises ImportError if python-lsp-server isn't installed.

    The server takes the first hover that isn't None, so `pylsp_hover` is marked to be asked before all others.
    """
    mark = importlib.import_module("pylsp").hookimpl
    for it in (pylsp_settings, pylsp_lint, pylsp_code_actions, pylsp_commands, pylsp_execute_command):
        mark(it)
    mark(tryfirst=True)(pylsp_hover)


_announce()
