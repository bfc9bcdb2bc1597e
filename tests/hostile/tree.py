"""Makes a repository as an attacker would write it: each trap in it leaves a file in a folder of canaries if it goes off."""
from __future__ import annotations

import hashlib
import os
import shlex
import shutil
import socket
import stat
import subprocess
from pathlib import Path
from typing import Dict, List

# What stands in files outside of the repository and in the environment, and must never be shown.
SECRET = "relint-canary-secret-5f1c"
FINDING = 'import re\nre.compile(r"(a|a)*b")\n'
GOOD = 'import re\nre.match(r"[a-z]+x", s)\n'
LEVELS = 70
# Names that a terminal, a log of a build server, a shell, a patch or a list of words could take for something else.
NAMES = [
    "line\nFORGED end.py", "line\n::set-output name=forged::1\n.py", "return\rFORGED.py",
    "escape\x1b[31mred\x1b]0;title\x07.py", "percent%0A::error::forged%0D.py", "::error::forged.py", "##[add-path]forged.py",
    "-rf.py", "--apply.py", "--format=sarif.py", "bidi\u202egnp\u2066.py", "control\u009b31m.py",
    "line\u2028paragraph\u2029next\u0085.py", "tab\there.py", "delete\x7f.py", "quotes'\"`.py", "a b.py", "back\\slash.py",
    "zero\u200bwidth\u200f.py", "star*.py", "[glob].py", ":(top)magic.py", "<img src=x onerror=alert(1)>.py",
]
# Patterns whose own text could do the same.
PATTERNS = ["(\x1b]0;FORGED\x07|a|a)*b", "(\u202egnp|a|a)*b", "(::error::FORGED|a|a)*b", "(##[error]FORGED|a|a)*b",
            "(\u009b31m|a|a)*b", "(%0A|a|a)*b", "('\"`$PATH|a|a)*b", "(\u2028|\u0085|a|a)*b"]
MODULES = ["relint", "re", "json", "ast", "os", "typing", "argparse", "tokenize", "sitecustomize", "usercustomize", "warnings",
           "tomllib"]
PROGRAMS = ["relint", "relint-ask", "rlt", "python3", "python", "git", "grep", "mktemp", "sed", "bash", "cat", "rt"]
_SHELL_NAMES = ["$(: >%s).py", "`: >%s`.py", ";: >%s;.py"]


class Repository:
    """The folders of a scratch folder: the repository, what lies outside of it, and the canaries."""

    def __init__(self, scratch: Path, environment: Dict[str, str]) -> None:
        self.scratch = scratch
        self.environment = environment
        self.top = scratch / "repository"
        self.outside = scratch / "outside"
        self.canaries = scratch / "canaries"
        for folder in (self.top, self.outside, self.canaries):
            folder.mkdir(parents=True)

    def canary(self, name: str) -> str:
        """A shell command that leaves the canary of this name."""
        return ": >" + shlex.quote(str(self.canaries / name))

    def sprung(self) -> List[str]:
        """The names of the canaries that are there; they are taken away."""
        names = sorted(os.listdir(str(self.canaries)))
        for name in names:
            (self.canaries / name).unlink()
        return names

    def git(self, *words: str) -> None:
        """Runs git in the repository, with nothing of its configuration that runs a program."""
        subprocess.run(["git", "-c", "core.fsmonitor=false", "-c", "core.hooksPath=/dev/null", *words], cwd=str(self.top),
                       env=self.environment, check=True, stdin=subprocess.DEVNULL, stdout=subprocess.DEVNULL,
                       stderr=subprocess.DEVNULL)


def write(path: Path, text: str, mode: int = 0o644) -> None:
    """Writes a file; the folders above it are made."""
    path.parent.mkdir(parents=True, exist_ok=True)
    path.write_bytes(text.encode("utf-8", "surrogateescape"))
    path.chmod(mode)


def make(scratch: Path, environment: Dict[str, str]) -> Repository:
    """Makes the repository in a scratch folder that is empty, and commits it. `environment` is that of git."""
    made = Repository(scratch, environment)
    _put_outside(made)
    _put_names(made)
    _put_decoys(made)
    _put_environments(made)
    _put_bare(made)
    # (not named as a source: it is read only if it is named)
    write(made.top / "slow.txt", slow_source(60))
    made.git("-c", "init.defaultBranch=main", "init", "-q")
    _put_deep(made)
    made.git("add", "-A")
    made.git("-c", "commit.gpgsign=false", "commit", "-q", "--no-verify", "-m", "A repository")
    _put_special(made)
    _arm(made, made.top / ".git", "own")
    return made


def _put_outside(made: Repository) -> None:
    write(made.outside / "secret.py", "%s = '''%s'''\n" % ("import re; re.compile('(a|a)*b'); x", SECRET))
    write(made.outside / "folder" / "secret.py", FINDING + "# " + SECRET + "\n")
    for name, target in {
        "link_out.py": "../outside/secret.py", "link_folder": "../outside/folder", "link_loop": ".",
        "link_zero.py": "/dev/zero", "link_none.py": "nothing", "link_written.html": "../outside/written",
        "link_self.py": "link_self.py", "link_environ.py": "/proc/self/environ",
    }.items():
        (made.top / name).symlink_to(target)


def _put_names(made: Repository) -> None:
    for name in NAMES:
        write(made.top / "names" / name, FINDING)
    for form in _SHELL_NAMES:
        # (a name has no slash: so the canary is left in the current folder, where `changes` finds it)
        write(made.top / "names" / (form % "canary"), FINDING)
    os.makedirs(os.fsencode(str(made.top / "bytes")))
    with open(os.fsencode(str(made.top / "bytes")) + b"/latin\xe9.py", "wb") as opened:
        opened.write(FINDING.encode("ascii"))
    lines = ["import re"] + ["re.compile('''%s''')" % it for it in PATTERNS]
    write(made.top / "patterns.py", "\n".join(lines) + "\n")
    held = ["import re", "WORDS = (%s)" % ", ".join(map(repr, PATTERNS)), "for word in WORDS:", "    re.compile(word)",
            "HEAD = WORDS[0]", "re.compile(HEAD + r'\\1')", "re.compile(f'(?={HEAD})x')"]
    write(made.top / "held.py", "\n".join(held) + "\n")
    write(made.top / "good.py", GOOD)
    write(made.top / "finding.py", FINDING)
    write(made.top / "applied.py", FINDING)
    write(made.top / "long.py", FINDING + "# long\n" * 1000)
    write(made.top / "old.html", "the old page\n")
    # a name whose header in a difference would be that of another file
    forged = "x\n--- /dev/null\n+++ b/.git/hooks/pre-commit\n@@ -0,0 +1,2 @@\n+#!/bin/sh\n+touch forged\n.py"
    write(made.top / "patch" / forged, FINDING)


def _put_decoys(made: Repository) -> None:
    """Programs and modules with the names of those that tools use."""
    for name in PROGRAMS:
        write(made.top / name, "#!/bin/sh\n%s\nexit 0\n" % made.canary("program-" + name), 0o755)
    for name in MODULES:
        write(made.top / (name + ".py"), "open(%r, 'w')\n" % str(made.canaries / ("module-" + name)))
    write(made.top / "conftest.py", "open(%r, 'w')\n" % str(made.canaries / "conftest"))


def _put_environments(made: Repository) -> None:
    """Folders that look like virtual environments, with findings in them."""
    write(made.top / "app" / "pyvenv.cfg", "home = /usr/bin\n")
    write(made.top / "app" / "hidden_by_pyvenv.py", FINDING)
    write(made.top / "lib" / "site-packages" / "hidden_by_site_packages.py", FINDING)


def _put_bare(made: Repository) -> None:
    """A bare repository that is committed as a folder, and whose configuration runs commands."""
    bare = made.top / "vendor"
    write(bare / "vendored.py", FINDING)
    for words in (["init", "-q"], ["add", "-A"]):
        subprocess.run(["git", *words], cwd=str(bare), env=made.environment, check=True, stdin=subprocess.DEVNULL)
    for name in ("HEAD", "index", "objects", "refs"):
        shutil.move(str(bare / ".git" / name), str(bare / name))
    shutil.rmtree(str(bare / ".git"))
    # (git keeps no empty folders)
    write(bare / "refs" / "heads" / "keep", "")
    (bare / "refs" / "heads" / "keep").unlink()
    _arm(made, bare, "bare")
    write(made.top / ".gitattributes", "*.py filter=trap diff=trap\n")


def slow_source(patterns: int) -> str:
    """A source with this number of patterns that take relint some seconds each, and a finding behind them."""
    letters = [chr(ord("a") + at) for at in range(26)] + [chr(ord("A") + at) for at in range(14)]
    lines = ["import re"]
    for number in range(patterns):
        choice = "|".join(".*?%s.{9}" % it for it in letters[number:] + letters[:number])
        lines.append("re.fullmatch(r'(?:%s)', s)" % choice)
    return "\n".join([*lines, "re.compile(r'(a|a)*b')", ""])


def _arm(made: Repository, folder: Path, name: str) -> None:
    """Gives a folder of git a configuration and hooks that run commands."""
    lines = ["[core]", "repositoryformatversion = 0", "bare = false"] + (["worktree = ."] if name == "bare" else [])

    def add(key: str, value: str) -> None:
        lines.append("%s = %s" % (key, '"%s"' % value.replace("\\", "\\\\").replace('"', '\\"')))

    for key in ("fsmonitor", "sshCommand", "pager", "editor", "askPass"):
        add(key, made.canary("%s-%s" % (name, key)) + "; false")
    add("hooksPath", str(made.outside / "hooks"))
    for section, keys in {'filter "trap"': ["clean", "smudge", "process"], "diff": ["external"],
                          'diff "trap"': ["command", "textconv"], "credential": ["helper"], "gpg": ["program"],
                          "alias": ["ls-files", "rev-parse"]}.items():
        lines.append("[%s]" % section)
        for key in keys:
            add(key, ("!" if section == "alias" else "") + made.canary("%s-%s-%s" % (name, section.split(" ")[0], key)))
    lines += ["[include]", 'path = "%s"' % (made.outside / "included")]
    write(folder / "config", "\n".join(lines) + "\n")
    write(made.outside / "included", '[core]\nfsmonitor = "%s; false"\n' % made.canary("included").replace("\\", "\\\\"))
    for hook in ("post-index-change", "pre-commit", "post-checkout", "fsmonitor-watchman"):
        for place in (folder / "hooks", made.outside / "hooks"):
            write(place / hook, "#!/bin/sh\n%s\n" % made.canary("%s-hook-%s" % (name, hook)), 0o755)


def _put_deep(made: Repository) -> None:
    folder = made.top / "deep"
    for _ in range(LEVELS):
        folder = folder / "d"
    write(folder / "below.py", FINDING)


def _put_special(made: Repository) -> None:
    """What git doesn't keep: a FIFO, a socket, a repository in a repository, and what can't be read."""
    os.mkfifo(str(made.top / "fifo.py"))
    here = os.getcwd()
    with socket.socket(socket.AF_UNIX) as listening:
        os.chdir(str(made.top))
        try:
            listening.bind("socket.py")
        finally:
            os.chdir(here)
    write(made.top / "linked" / "inner.py", FINDING)
    write(made.top / "linked" / ".git", "gitdir: ../vendor\n")
    write(made.top / "locked" / "folder" / "unseen.py", FINDING)
    write(made.top / "locked" / "nosearch" / "unseen.py", FINDING)
    write(made.top / "locked" / "file.py", FINDING, 0)
    (made.top / "locked" / "folder").chmod(0)
    (made.top / "locked" / "nosearch").chmod(0o600)


def unlock(made: Repository) -> None:
    """Lets everything be removed again."""
    for name in ("folder", "nosearch"):
        (made.top / "locked" / name).chmod(0o700)


def _digest(path: str, mode: int) -> str:
    if stat.S_ISLNK(mode):
        return "-> " + os.readlink(path)
    if not stat.S_ISREG(mode):
        return ""
    with open(path, "rb") as opened:
        return hashlib.sha256(opened.read()).hexdigest()


def _state(path: str) -> str:
    found = os.lstat(path)
    try:
        return "%o %s" % (found.st_mode, _digest(path, found.st_mode))
    except PermissionError:
        return "%o ?" % found.st_mode


def snapshot(folder: Path) -> Dict[str, str]:
    """What each path below a folder is: its mode, and the sum of its bytes or the target of a link."""
    found = {}
    for top, folders, names in os.walk(str(folder)):
        for name in folders + names:
            path = os.path.join(top, name)
            found[os.path.relpath(path, str(folder))] = _state(path)
    return found


def changes(before: Dict[str, str], after: Dict[str, str]) -> List[str]:
    """The paths that came, went, or are another thing now."""
    return sorted(path for path in {*before, *after} if before.get(path) != after.get(path))
