"""Which files a run looks at, what it names as not looked at, and what git is asked; nothing of a repository is run."""
from __future__ import annotations

import os
import shutil
import subprocess
import time
import unittest
from pathlib import Path
from typing import Any, Dict, List, Tuple
from unittest import mock

from engine_support import folder
from relint import files, git
from relint.base.model import Narrowed
from relint.files import Chosen, FilesError, choose, plain, walk
from relint.options import Options

FILES = {"a.py": "a", "src/b.py": "b", "src/c d.py": "c"}
NO_GIT = "" if shutil.which("git") else "it needs git"
MONITOR = (
    "[core]\n\trepositoryformatversion = 0\n\tbare = false\n\tworktree = {tree}\n"
    '\tfsmonitor = "touch {canary}; false"\n\thooksPath = {hooks}\n'
)


def chosen(*paths: str, **more: Any) -> Chosen:
    return choose(Options(paths=paths or (".",), folder=more.pop("top", os.getcwd()), **more))


def missed(found: Chosen) -> List[Tuple[str, str, bool]]:
    return [(it.path, it.why, it.fails) for it in found.not_looked]


def made(*words: str) -> None:
    named = ["-c", "user.name=a", "-c", "user.email=a@b", "-c", "protocol.file.allow=always"]
    subprocess.run(["git", *named, *words], check=True, stdout=subprocess.DEVNULL, stderr=subprocess.DEVNULL)


def committed() -> None:
    if not os.path.exists(".git"):
        made("init", "-q", ".")
    made("add", ".")
    made("commit", "-q", "-m", "text")


class Chosen_(unittest.TestCase):
    """Files below folders, and files that are named."""

    def test_order_and_names(self) -> None:
        with folder({**FILES, "b/x.py": "", "b.py": "", "n.ipynb": "{}", "t.txt": "", "s.pyi": "", "src/b.py2": ""}) as here:
            found = chosen()
            self.assertEqual(found.files, ["a.py", "b/x.py", "b.py", "src/b.py", "src/c d.py"])
            self.assertEqual((found.notebooks, found.not_looked, found.notes), (["n.ipynb"], [], ()))
            found = chosen("src", "./src//b.py", str(here / "src"), "a.py", ".")
            self.assertEqual(found.files[:3], ["src/b.py", "src/c d.py", "a.py"])
            self.assertEqual(chosen("t.txt", "./n.ipynb").files, ["t.txt"])
            os.chdir("src")
            self.assertEqual(chosen("..", top=str(here)).files[-1], "../src/c d.py")

    def test_plain_paths(self) -> None:
        for path, short in (("./a", "a"), (".", "."), ("a//b/./c", "a/b/c"), ("/", "/"), ("//a/", "/a/"), ("a/", "a/"),
                            ("../a", "../a"), ("./", ".")):
            self.assertEqual(plain(path), short)

    def test_what_is_not_looked_at(self) -> None:
        deep = "d/" * 66
        with folder({**FILES, f"{deep}e.py": ""}):
            os.symlink("a.py", "link.py")
            os.symlink("src", "other")
            os.symlink("none", "lost")
            os.mkfifo("pipe.py")
            Path(os.fsdecode(b"\xff.py")).write_text("")
            found = missed(chosen())
            self.assertEqual(found, [
                (deep[:129], "the folder lies more than 64 levels deep", False), ("link.py", "it is a link", False),
                ("other", "it is a link", False), ("pipe.py", "it is neither a file nor a folder", False),
                ("\udcff.py", "its name isn't UTF-8", False)])
            self.assertEqual(missed(chosen("link.py", "pipe.py", "none.py", "a\0b", "other")), [
                ("link.py", "it is a link: name what it points to", True),
                ("pipe.py", "it is neither a file nor a folder", True), ("none.py", "it isn't there", True),
                ("a\0b", "it isn't there", True),
                ("other", "it is a link: name what it points to", True)])
            self.assertEqual(chosen("other/").files, ["other/b.py", "other/c d.py"])

    @unittest.skipIf(os.geteuid() == 0, "root may open everything")
    def test_a_closed_folder(self) -> None:
        with folder(FILES):
            os.chmod("src", 0)
            self.assertEqual(missed(chosen()), [("src", "the folder can't be opened", True)])
            os.chmod("src", 0o755)

    def test_a_folder_that_becomes_a_link_meanwhile(self) -> None:
        with folder({**FILES, "secret/s.py": ""}):
            opened = os.open

            def swapped(name: str, *given: Any, **more: Any) -> int:
                if name == "src":
                    os.rename("src", "moved")
                    os.symlink("secret", "src")
                return opened(name, *given, **more)

            with mock.patch.object(os, "open", swapped):
                found = chosen("a.py", ".")
            self.assertIn(("src", "the folder can't be opened", True), missed(found))

    def test_exclusions(self) -> None:
        names = ["a.py", "build/b.py", "docs/c.py", "docs/api/d.py", "env/pyvenv.cfg", "env/e.py", "x/gen_f.py", ".git/g.py"]
        with folder({it: "" for it in names}) as here:
            said = Narrowed("relint.toml", "exclude"), Narrowed("relint.toml", "paths")
            found = chosen(exclude=("docs", "gen_*"), narrowed=said)
            self.assertEqual(found.files, ["a.py"])
            self.assertEqual(found.narrowed, (Narrowed("relint.toml", "exclude", 2), said[1]))
            self.assertEqual(found.notes, ("left out: build, virtual environments (--no-default-exclude looks there too)",))
            self.assertEqual(len(chosen(no_default_exclude=True).files), 7)
            self.assertEqual(chosen("build", "env").files, ["build/b.py", "env/e.py"])
            self.assertEqual(chosen("docs/api/d.py", "a.py", exclude=("docs/*",)).files, ["a.py"])
            self.assertEqual(chosen("docs", exclude=("docs",)).files, [])
            self.assertEqual(chosen(exclude=(f"{here}/docs/a*",)).files, ["a.py", "docs/c.py", "x/gen_f.py"])
            os.chdir("docs")
            self.assertEqual(chosen(exclude=("docs/api",), top=str(here)).files, ["c.py"])
            self.assertEqual(chosen("../docs", exclude=("docs/api",), top=str(here)).files, ["../docs/c.py"])

    def test_nothing_at_all(self) -> None:
        with folder({"a.txt": "", "build/b.py": ""}):
            with self.assertRaisesRegex(FilesError, r"no Python file among \.: left out: build"):
                chosen()

    def test_the_project(self) -> None:
        names = ["setup.py", "src/a.py", "src/a.pyi", "c.pyx", "build/b.py", "node_modules/x.py", ".git/x.py"]
        with folder({it: "" for it in names}) as here:
            ends = (".py", ".pyi", ".pyx")
            whole = ["build/b.py", "c.pyx", "setup.py", "src/a.py", "src/a.pyi"]
            self.assertEqual(sorted(chosen(exclude=("src", "c*")).project(ends) or []), whole)
            os.chdir("src")
            found = chosen("a.py", top=str(here)).project(ends)
            self.assertEqual(found, ["a.py", "../build/b.py", "../c.pyx", "../setup.py", "a.pyi"])
            found = chosen(str(here / "src/a.py"), top=str(here)).project(ends)
            self.assertEqual((found or [])[0], str(here / "src/a.py"))
            self.assertEqual(len(found or []), 5)
            with mock.patch.object(files, "MOST_OF_A_PROJECT", 3):
                self.assertIsNone(chosen(top=str(here)).project(ends))

    def test_many_descriptors_are_not_needed(self) -> None:
        with folder({f"f{it}/g/a.py": "" for it in range(300)}):
            before = len(os.listdir("/proc/self/fd"))
            self.assertEqual(sum(it.kind == files.FILE for it in walk("", lambda *_: True)), 300)
            self.assertEqual(len(os.listdir("/proc/self/fd")), before)


@unittest.skipIf(NO_GIT, NO_GIT)
class Tracked(unittest.TestCase):
    """What git tracks."""

    def bare(self, top: Path, tree: str = ".") -> None:
        """Makes a folder pose as a repository whose configuration names a command."""
        shutil.copytree(".git", str(top), dirs_exist_ok=True)
        config = MONITOR.format(tree=tree, canary=os.path.abspath("canary"), hooks=os.path.abspath("hooks"))
        (top / "config").write_text(config, encoding="utf-8")

    def test_paths_begin_as_the_one_that_is_named(self) -> None:
        with folder(FILES) as here:
            committed()
            Path("new.py").write_text("")
            self.assertEqual(chosen(tracked=True).files, ["a.py", "src/b.py", "src/c d.py"])
            self.assertEqual(chosen("./src/", tracked=True).files, ["src/b.py", "src/c d.py"])
            self.assertEqual(chosen(str(here), tracked=True).files, sorted(f"{here}/{it}" for it in FILES))
            os.chdir("src")
            found = chosen("..", "b.py", "none.py", tracked=True, top=str(here))
            self.assertEqual(found.files, ["../a.py", "../src/b.py", "../src/c d.py"])
            self.assertEqual(missed(found), [("none.py", "it isn't there", True)])

    def test_submodules_links_and_environments(self) -> None:
        with folder({**{f"main/{it}": "" for it in FILES}, "other/b.py": "", "main/.venv/v.py": "", "main/e/pyvenv.cfg": "",
                     "main/e/v.py": ""}) as here:
            os.chdir("other")
            committed()
            os.chdir("../main")
            os.symlink("a.py", "link.py")
            made("init", "-q", ".")
            made("submodule", "add", "-q", str(here / "other"), "inner")
            committed()
            found = chosen(tracked=True)
            # (a change could bring the file that makes a folder an environment)
            self.assertEqual(found.files, sorted([*FILES, ".venv/v.py", "e/v.py"]))
            self.assertEqual(missed(found), [("inner", "it is a submodule", False), ("link.py", "it is a link", False)])
            self.assertEqual(found.notes, ())
            self.assertEqual(chosen("inner", tracked=True).files, ["inner/b.py"])

    def test_a_folder_that_poses_as_a_repository(self) -> None:
        for tree in (".", ".."):
            with folder(FILES) as here:
                committed()
                self.bare(Path("src"), tree)
                self.assertEqual(chosen("src", tracked=True).files, ["src/b.py", "src/c d.py"])
                os.chdir("src")
                self.assertEqual(chosen(tracked=True).files, ["b.py", "c d.py"])
                self.assertFalse((here / "canary").exists())

    def test_the_repository_s_own_configuration(self) -> None:
        with folder({**FILES, ".gitattributes": "*.py filter=x diff=x"}) as here:
            committed()
            canary = here / "canary"
            for name in ("core.fsmonitor", "core.pager", "filter.x.smudge", "filter.x.clean", "diff.x.textconv"):
                made("config", name, f"touch '{canary}'; false")
            Path(".git/hooks/post-index-change").write_text(f"#!/bin/sh\ntouch '{canary}'\n")
            os.chmod(".git/hooks/post-index-change", 0o755)
            self.assertEqual(chosen(tracked=True).files, sorted(FILES))
            earlier = files.Earlier("HEAD")
            self.assertEqual(earlier.data("a.py"), b"a")
            earlier.close()
            self.assertFalse(canary.exists())

    def test_work_trees_that_are_none(self) -> None:
        with folder({**FILES, "other/d.py": ""}):
            self.assertRaisesRegex(git.GitError, "is in no work tree of git", git.tracked, ".")
            committed()
            made("config", "core.worktree", os.path.abspath("other"))
            self.assertRaisesRegex(git.GitError, "git doesn't take .* for the top", git.tracked, ".")
        with folder(FILES):
            committed()
            self.bare(Path("kept"), os.path.abspath("src"))
            Path("src/.git").write_text("gitdir: ../kept\n", encoding="utf-8")
            self.assertRaisesRegex(git.GitError, "which lies in the work tree", git.tracked, "src")
            self.assertFalse(os.path.exists("canary"))

    def test_variables_and_a_pipe(self) -> None:
        with folder(FILES):
            committed()
            variables = {"GIT_DIR": "/none", "GIT_WORK_TREE": "/none", "GIT_CONFIG_COUNT": "1",
                         "GIT_CONFIG_KEY_0": "core.bare", "GIT_CONFIG_VALUE_0": "true"}
            with mock.patch.dict(os.environ, variables):
                self.assertEqual(len(git.tracked(".")), 3)
            os.unlink(".git/HEAD")
            os.mkfifo(".git/HEAD")
            with mock.patch.object(git, "SECONDS_OF_A_FIND", 1.0):
                self.assertRaises(git.GitError, git.tracked, ".")
            begun = time.monotonic()
            self.assertRaisesRegex(git.GitError, "took more than", choose, Options(tracked=True), begun + 1)
            self.assertRaisesRegex(git.GitError, "took more than", git.Earlier, "HEAD", ".", begun + 2)
            self.assertLess(time.monotonic() - begun, 15)

    def test_another_owner_is_named(self) -> None:
        said = "fatal: detected dubious ownership in repository at '/x'\nTo add an exception for this directory, call:\n"
        self.assertIn("another user owns /x (dubious ownership)", git._reason("/x", said))


@unittest.skipIf(NO_GIT, NO_GIT)
class Before(unittest.TestCase):
    """What stands in an earlier commit."""

    def test_files_and_bytes(self) -> None:
        names: Dict[str, object] = {**FILES, "big.py": b"x" * (git.MOST_OBJECT + 1), "\xfc\n.py": "odd", "empty.py": ""}
        with folder(names) as here:
            os.symlink("a.py", "link.py")
            committed()
            for it in ("a.py", "src/b.py"):
                os.unlink(it)
            earlier = files.Earlier("HEAD", "src")
            self.addCleanup(earlier.close)
            self.assertEqual(sorted(earlier.files()), sorted(names))
            for path, data in (("a.py", b"a"), (str(here / "src/c d.py"), b"c"), ("\xfc\n.py", b"odd"), ("empty.py", b""),
                               ("big.py", None), ("link.py", None), ("none.py", None), ("/etc/passwd", None), ("../x", None)):
                self.assertEqual(earlier.data(path), data)
            blob = earlier.files()["src/c d.py"]
            self.assertEqual((earlier.is_same(blob, b"c"), earlier.is_same(blob, b"d")), (True, False))

    def test_names_that_are_no_commit(self) -> None:
        with folder(FILES):
            committed()
            for ref in ("none", "--help", "HEAD:a.py", "", "HEAD\n", "-x", "HEAD^{tree}"):
                self.assertRaisesRegex(git.GitError, "no commit here", files.Earlier, ref)
            self.assertEqual(len(files.Earlier("HEAD").name), 40)


if __name__ == "__main__":
    unittest.main()
