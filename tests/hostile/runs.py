"""The runs over the hostile repository: each word, in each layout, and each script, hook and action."""
from __future__ import annotations

import re
from dataclasses import dataclass
from pathlib import Path
from typing import Dict, Iterator, List

from hostile import tree
from hostile.watch import ANY_STATUS, Run

# What a reader of the report has to be told of, whichever way the files are found.
TRACKED_FINDINGS = ["finding.py", "hidden_by_pyvenv.py", "hidden_by_site_packages.py"]
# Paths that come as single words, as a hook gets them.
_NAMED = ["names/" + name for name in tree.NAMES] + [
    "finding.py", "link_out.py", "link_zero.py", "link_environ.py", "fifo.py", "socket.py"]
SHOWN = frozenset([0, 1, 2, 3, 5])
SITE = "import sys; sys.path.insert(0, sys.argv.pop(1)); "
LAYOUTS = ("terminal", "concise", "github", "gitlab", "sarif", "json", "html")
# The command rlt as an installation runs it, behind the name of a Python and before the folder of the package.
PLAIN = ("-I", "-B", "-c", SITE + "from relint.cli import main; sys.exit(main())")


@dataclass(frozen=True)
class Place:
    """Where everything is: this tree, the Python of the tools, the program, and a folder with the tools installed."""

    top: Path
    python: str
    program: Path
    site: Path

    def rlt(self, *words: str) -> List[str]:
        """The command rlt with these words, run by the Python of the tools."""
        return [self.python, *PLAIN, str(self.top / "python"), *words]


def of_relint(place: Place) -> Iterator[Run]:
    """The program itself, and its launcher."""
    program = [str(place.program)]
    for layout in ("text", "brief", "json", "sarif"):
        yield Run("relint check --format %s ." % layout, [*program, "check", "--format", layout, "."], frozenset([3]),
                  raw=True)
    yield Run("relint check NAMES", [*program, "check", "--", *_NAMED], frozenset([1]), raw=True)
    yield Run("./relint check .", [str(place.top / "relint"), "check", "--format", "brief", "."], frozenset([3]), raw=True,
              environment={"RELINT": ""})


def of_check(place: Place) -> Iterator[Run]:
    """rlt check: over the folder, over what git tracks, and with files left out, in each layout."""
    for layout in LAYOUTS:
        words = place.rlt("check", "--format", layout)
        raw = layout in ("html", "sarif", "json", "gitlab")
        shown = ["finding.py"] if layout != "html" else []
        yield Run("rlt check --format %s ." % layout, [*words, "--all", "."], SHOWN, shows=shown, raw=raw,
                  hides=["<img src=x"] if layout == "html" else [])
        yield Run("rlt check --format %s NAMES" % layout, [*words, "--", *_NAMED], SHOWN, raw=raw)
        yield Run("rlt check --format %s --tracked" % layout, [*words, "--tracked"], SHOWN, raw=raw,
                  shows=TRACKED_FINDINGS if shown else ())
    words = place.rlt("check")
    # (an environment that git tracks is none)
    yield Run("rlt check --tracked tells what it passes over", [*words, "--tracked", "app", "lib"], frozenset([1, 3]),
              shows=["hidden_by_pyvenv.py"])
    yield Run("rlt check --color always .", [*words, "--color", "always", "patterns.py"], SHOWN, raw=True)
    yield Run("rlt check sees a folder that may not be searched", [*words, "--all", "--exclude", "names", "locked"],
              frozenset([3]), shows=["locked/nosearch", "locked/folder", "locked/file.py"])
    yield Run("rlt check deep", [*words, "--all", "--exclude", "x", "deep"], SHOWN, shows=["deep"])
    for name in ("vendor", "linked", "deep", "link_folder", "link_loop"):
        yield Run("rlt check --tracked %s" % name, [*words, "--tracked", "--", name], SHOWN)
    yield Run("rlt check held.py", [*words, "held.py", "finding.py"], SHOWN, shows=["held.py", "finding.py"])
    yield Run("rlt check --trials", [*words, "--trials", "names", "held.py", "patterns.py"], frozenset([1, 3]),
              shows=["held.py"])
    for ref in ("HEAD", "none", "-x", "--upload-pack=touch x", "HEAD:finding.py", ":/x"):
        yield Run("rlt check --baseline-commit %s" % ref, [*words, "--baseline-commit=" + ref, "--locked", "finding.py",
                                                           "names"],
                  frozenset([0, 1, 2, 3]))


def of_files(place: Place) -> Iterator[Run]:
    """What is written: to files, and through links; and what stands on full disks."""
    words = place.rlt("check")
    yield Run("rlt check --write", [*words, "--write", "html=page.html", "--write", "sarif=x.sarif", "finding.py"],
              frozenset([1]),
              may_change=["page.html", "x.sarif"])
    for layout in ("html", "sarif"):
        yield Run("rlt check --write %s through a link" % layout, [*words, "--write", layout + "=link_written.html",
                                                                   "finding.py"],
                  frozenset([2, 4]))
    full = ["sh", "-c", 'ulimit -f 1; exec "$@"', "sh"]
    yield Run("rlt check --write on a full disk", [*full, *words, "--write", "html=old.html", "long.py"], frozenset([2, 3, 4]))
    yield Run("rlt fix on a full disk", [*full, *place.rlt("fix", "long.py")], frozenset([1, 2, 3, 4]))
    yield Run("packaging/action with SARIF on a full disk", [*full, str(place.top / "packaging" / "action")],
              frozenset([2, 3, 4]), environment={"RELINT_PATHS": "finding.py", "RELINT_SARIF": "old.html"})


def of_words(place: Place) -> Iterator[Run]:
    """The other words of rlt."""
    yield Run("rlt fix --diff", place.rlt("fix", "--diff", "--", *_NAMED), SHOWN, diff=True)
    yield Run("rlt fix", place.rlt("fix", "applied.py", "link_out.py"), SHOWN, may_change=["applied\\.py"])
    yield Run("rlt accept", place.rlt("accept", "finding.py:2", "--reason", "\x1b[31mred"), frozenset([0, 1, 2, 3]),
              may_change=["relint-accepted\\.json"])
    yield Run("rlt accept --all", place.rlt("accept", "--all", "--reason", "x", "names"), frozenset([0, 1, 2, 3]),
              may_change=["relint-accepted\\.json"])
    yield Run("rlt accept through a link", place.rlt("accept", "--accepted", "link_written.html", "--all", "--reason", "x",
                                                     "finding.py"),
              frozenset([1, 2, 3, 4]))
    for pattern in tree.PATTERNS[:4]:
        yield Run("rlt pattern %r" % pattern, place.rlt("pattern", "--", pattern), frozenset([0, 1, 2, 3]))
    yield Run("rlt compare", place.rlt("compare", "--", tree.PATTERNS[0], tree.PATTERNS[1]), frozenset([0, 1, 2, 3]))
    yield Run("rlt explain", place.rlt("explain", "../../finding"), frozenset([2]))
    yield Run("rlt confirm", place.rlt("confirm", "--longest", "2000", "names", "patterns.py"), SHOWN)
    words = place.rlt("record", "--", place.python, "-B", "-c",
                      "import sys; sys.path[:1] = []; import re; re.compile('(a|a)*b')")
    yield Run("rlt record", words, frozenset([0, 1]))
    source = b'import re\nre.compile(r"(a|a)*b")\n'
    yield Run("rlt check -", place.rlt("check", "--stdin-filename", "a\nb.py", "-"), frozenset([1, 2]), input=source)


def of_paths(place: Place) -> Iterator[Run]:
    """Which program is run, and which git: never that of the current folder; and which package python3 -m takes."""
    check = place.rlt("check", "--tracked", "good.py", "finding.py")
    for name, front in {"an empty folder": ":", "the current folder": ".:", "the folder by its name": "./:"}.items():
        yield Run("rlt check --tracked with %s in PATH" % name, check, SHOWN, front=front)
    for name, front in {"no RELINT": "", "an empty folder in PATH": ":", "the current folder in PATH": ".:"}.items():
        code = SITE + "from relint.cli import main; sys.exit(main(['finding.py']))"
        yield Run("python3 -c with relint.cli, %s" % name, [place.python, "-I", "-B", "-c", code, str(place.site)],
                  frozenset([0, 1, 2]), front=front, environment={"RELINT": "", "RELINT_ASK": ""})
    for other in ("/bin/true", "/bin/cat", "/bin/false"):
        for variable in ("RELINT", "RELINT_ASK"):
            yield Run("rlt check with %s=%s" % (variable, other), place.rlt("check", "finding.py"), frozenset([2]),
                      environment={variable: other})


def of_scripts(place: Place) -> Iterator[Run]:
    """The hook of examples/ci, the step of action.yml, and the entries of the hooks."""
    statuses = frozenset([0, 1, 2, 3])
    action = [str(place.top / "packaging" / "action")]
    paths: Dict[str, str] = {"the folder": ".", "a bare repository": "vendor", "a repository in it": "linked"}
    for name, path in paths.items():
        given = {"RELINT_PATHS": path, "RELINT_ARGUMENTS": "--tracked"}
        yield Run("packaging/action over %s" % name, action, SHOWN, environment=given)
    yield Run("packaging/action with SARIF through a link", action, frozenset([2, 4]), environment={
        "RELINT_PATHS": "finding.py", "RELINT_SARIF": "link_written.html"})
    for base in ("$(touch x)", "--help", "HEAD; touch x"):
        yield Run("packaging/action with the base %s" % base, action, frozenset([2]), environment={"RELINT_BASE": base})
    hooks = (place.top / ".pre-commit-hooks.yaml").read_text(encoding="utf-8")
    for entry, words in re.findall(r"entry: (.*)\n  args: \[(.*)\]", hooks):
        command = [*entry.split(), *(it.strip() for it in words.split(",") if it.strip())]
        changed = ["(?s)names/.*", "finding\\.py"] if entry == "rlt fix" else []
        yield Run("the hook's entry %s" % entry, [*command, *_NAMED], statuses, raw="relint check" in entry,
                  may_change=changed)


def of_pages(place: Place) -> Iterator[Run]:
    """The command that rlt proposes under `try`, as it is: it must not import from the current folder."""
    code = ("import subprocess, sys; shown = subprocess.run(sys.argv[1:], stdout=subprocess.PIPE).stdout.decode();"
            " line = [it for it in shown.splitlines() if it.startswith('  try:')][0].partition(':')[2].strip();"
            " print(line); subprocess.run(['timeout', '2', 'sh', '-c', line])")
    yield Run("the command under try", [place.python, "-I", "-B", "-c", code, *place.rlt("check", "finding.py")], ANY_STATUS,
              shows=["python3"])


def of_time(place: Place) -> Iterator[Run]:
    """A source whose patterns take minutes: each word ends in time, and says what it didn't come to."""
    yield Run("rlt check slow.txt", place.rlt("check", "--seconds", "3", "slow.txt"), frozenset([3]), shows=["time"])
    yield Run("rlt fix --diff slow.txt", place.rlt("fix", "--diff", "--seconds", "3", "slow.txt"), frozenset([3]), diff=True)
    yield Run("packaging/action over slow.txt", [str(place.top / "packaging" / "action")], frozenset([3]), shows=["time"],
              environment={"RELINT_PATHS": "slow.txt", "RELINT_ARGUMENTS": "--seconds=3"})


def every(place: Place) -> List[Run]:
    """All runs over the repository."""
    parts = (of_relint, of_check, of_files, of_words, of_paths, of_scripts, of_pages, of_time)
    return [run for part in parts for run in part(place)]
