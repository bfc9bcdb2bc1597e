"""What the tests of plugins and of the language server share: an installed package, and a session of the protocol."""
from __future__ import annotations

import json
import os
import queue
import shutil
import subprocess
import sys
import tempfile
import threading
import time
import unittest
from pathlib import Path
from typing import Any, Dict, List, Optional, Sequence

from engine_support import missing
from relint.engine.program import located
from support import ROOT

SECONDS = 300
NO_PROGRAM = missing("relint", "relint-ask")
SLOW = 'import re\nTEXT = "\U0001f600", re.search(r"^(\\w+,?)*$", "x")\nEND = re.search(r"\\s+$", "x")\n'
START, END = {"line": 1, "character": 23}, {"line": 1, "character": 36}
Json = Dict[str, Any]


def entry_points() -> str:
    """What packaging/ writes as the file entry_points.txt."""
    code = "import sys; from pathlib import Path; from relint_build import metadata; " \
           "sys.stdout.write(metadata.read_project(Path(sys.argv[1])).entry_points())"
    made = subprocess.run([sys.executable, "-c", code, str(ROOT)], cwd=ROOT / "packaging", stdout=subprocess.PIPE, check=True)
    return made.stdout.decode()


def python_with(module: str) -> str:
    """A Python that has a module, or ""."""
    for it in dict.fromkeys((sys.executable, "/usr/bin/python3")):
        words = [it, "-c", f"import {module}"]
        if os.access(it, os.X_OK) and subprocess.run(words, stderr=subprocess.DEVNULL).returncode == 0:
            return it
    return ""


class Installed(unittest.TestCase):
    """A project in a folder of its own, and a folder of packages that has relint and nothing else."""

    def setUp(self) -> None:
        self.top = Path(tempfile.mkdtemp()).resolve()
        self.addCleanup(shutil.rmtree, self.top)
        self.folder, packages = self.top / "project", self.top / "packages"
        notes = packages / "relint-1.0.0.dist-info"
        notes.mkdir(parents=True)
        self.folder.mkdir()
        shutil.copytree(ROOT / "python/relint", packages / "relint", ignore=shutil.ignore_patterns("__pycache__"))
        (packages / "relint/docs").symlink_to(ROOT / "docs")
        (notes / "METADATA").write_text("Metadata-Version: 2.1\nName: relint\nVersion: 1.0.0\n")
        (notes / "entry_points.txt").write_text(entry_points())
        self.environment: Dict[str, str] = {
            "PATH": "/usr/bin:/bin", "HOME": str(self.top), "PYTHONPATH": str(packages), "RELINT": located("relint"),
            "RELINT_ASK": located("relint-ask"), "PYTHONDONTWRITEBYTECODE": "1", "XDG_CACHE_HOME": str(self.top / "cache"),
        }

    def put(self, name: str, text: str) -> Path:
        """Writes a file of the project."""
        path = self.folder / name
        path.parent.mkdir(parents=True, exist_ok=True)
        path.write_text(text, encoding="utf-8")
        return path


class Session:
    """A client of a server: it writes to its standard input, and a thread reads what comes."""

    def __init__(self, words: Sequence[str], **options: Any) -> None:
        pipe = subprocess.PIPE
        self.process = subprocess.Popen(words, stdin=pipe, stdout=pipe, stderr=subprocess.DEVNULL, **options)
        self.messages: "queue.Queue[Json]" = queue.Queue()
        self.number = 0
        threading.Thread(target=self._read, daemon=True).start()

    def _read(self) -> None:
        assert self.process.stdout
        while True:
            size = 0
            while True:
                head = self.process.stdout.readline()
                if not head:
                    return
                if head.startswith(b"Content-Length:"):
                    size = int(head.split(b":")[1])
                if not head.strip():
                    break
            self.messages.put(json.loads(self.process.stdout.read(size)))

    def write(self, method: str, params: Any, number: Optional[int] = None) -> None:
        """Writes a notification, or a request with a number."""
        assert self.process.stdin
        body: Json = {"jsonrpc": "2.0", "method": method, "params": params}
        if number is not None:
            body["id"] = number
        data = json.dumps(body).encode("ascii")
        self.process.stdin.write(b"Content-Length: %d\r\n\r\n%s" % (len(data), data))
        self.process.stdin.flush()

    def ask(self, method: str, params: Any) -> Any:
        """Writes a request; returns its result. What else comes before it is dropped."""
        self.number += 1
        self.write(method, params, self.number)
        return self.next(lambda it: it.get("id") == self.number and "method" not in it)["result"]

    def next(self, wanted: Any) -> Json:
        """Returns the next message that is wanted."""
        until = time.monotonic() + SECONDS
        while True:
            found = self.messages.get(timeout=max(0.1, until - time.monotonic()))
            if wanted(found):
                return found

    def method(self, name: str) -> Any:
        """Returns the parameters of the next message of a method."""
        return self.next(lambda it: it.get("method") == name)["params"]

    def end(self) -> None:
        """Ends the server."""
        self.process.kill()
        self.process.wait()
        for it in (self.process.stdin, self.process.stdout):
            if it:
                it.close()


class Client(Installed):
    """A project with the file app.py, which is empty, and a session in which that file is open."""

    words: Sequence[str] = ()
    capabilities: Json = {}
    settings: Json = {}

    def setUp(self) -> None:
        super().setUp()
        self.path = self.put("app.py", "")
        self.uri = self.path.as_uri()
        self.session = Session(self.words, cwd=self.folder, env=self.environment)
        self.addCleanup(self.session.end)
        self.session.ask("initialize", {"processId": None, "rootUri": self.folder.as_uri(), "capabilities": self.capabilities,
                                        "initializationOptions": self.settings})
        self.session.write("initialized", {})

    def published(self) -> List[Json]:
        """The next diagnostics of relint."""
        found = self.session.method("textDocument/publishDiagnostics")["diagnostics"]
        return [it for it in found if it["source"] == "rlt"]

    def open(self, text: str) -> List[Json]:
        """Opens the text; returns its diagnostics."""
        document = {"uri": self.uri, "languageId": "python", "version": 1, "text": text}
        self.session.write("textDocument/didOpen", {"textDocument": document})
        return self.published()

    def change(self, text: str, **more: Any) -> List[Json]:
        """Types another text; returns its diagnostics."""
        self.session.write("textDocument/didChange", {"textDocument": {"uri": self.uri, "version": 2},
                                                      "contentChanges": [{"text": text, **more}]})
        return self.published()

    def hover(self, line: int, character: int) -> str:
        """What is shown below the cursor."""
        found = self.session.ask("textDocument/hover", {"textDocument": {"uri": self.uri},
                                                        "position": {"line": line, "character": character}})
        contents = found["contents"] if found else ""
        return str(contents["value"]) if contents else ""

    def actions(self) -> List[Json]:
        """The menu at the slow pattern."""
        found = self.session.ask("textDocument/codeAction", {"textDocument": {"uri": self.uri}, "context": {"diagnostics": []},
                                                             "range": {"start": START, "end": START}})
        return [it for it in found if it["title"].startswith("rlt")]

    def codes(self, found: Sequence[Json]) -> List[Any]:
        """The codes and severities of diagnostics."""
        return [(it["code"], it["severity"]) for it in found]
