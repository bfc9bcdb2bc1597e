"""What is cited is there: links with their anchors, files and items, names of Python, wrong bodies and worked rows."""
from __future__ import annotations

import ast
import io
import os
import re
import tokenize
import unittest
from pathlib import Path
from typing import Dict, Iterator, List, Set, Tuple

from runner import code, scratch

TOP = Path(__file__).resolve().parents[2]
CRATES = TOP / "crates"
FENCED = re.compile(r"^(`{3,}).*?^\1", re.MULTILINE | re.DOTALL)
LINK = re.compile(r"\]\(([^)\s]+)\)")
FILE = re.compile(r"`([\w./-]+\.(?:rt|antt))`")
# `FILE` (`ITEM`), and `ITEM` (`FILE`)
FILE_WITH_ITEM = re.compile(r"`([\w./-]+\.(?:rt|antt))` \(`(\w+)`\)")
ITEM_WITH_FILE = re.compile(r"`(\w+)` \(`([\w./-]+\.(?:rt|antt))`")
# What stands in backquotes; a path; the name of a constant or of a variable of the environment; and a name with dots.
QUOTED = re.compile(r"(?<!`)`([^`\n]+)`(?!`)")
PATH = re.compile(r"[\w.*-]+(?:/[\w.*-]+)+/?")
CONSTANT = re.compile(r"[A-Z][A-Z0-9]*_[A-Z0-9_]+")
DOTTED = re.compile(r"[A-Za-z_]\w*(?:\.[A-Za-z_]\w*)+")
# Words in capitals that stand for a part of a path; names of others; and the page that names what there was before.
STANDS_FOR = re.compile(r"[A-Z]{3,}(?![a-z.])")
OTHERS = {"SECURE_REDIRECT_EXEMPT"}
OF_BEFORE = "CHANGELOG.md"
FOLDERS = ("python", "tests")


def pages() -> Iterator[Path]:
    """The pages, without those of the data of worked rows."""
    for name in ("README.md", "CONTRIBUTING.md", "CHANGELOG.md", "SECURITY.md", "tests/README.md", "release/README.md",
                 "examples/README.md", "fuzz/README.md"):
        yield TOP / name
    yield from sorted((TOP / "docs").glob("*.md"))


def prose(page: Path) -> str:
    """The text of a page without its fenced blocks."""
    return FENCED.sub("", page.read_text(encoding="utf-8"))


def anchors(page: Path) -> Set[str]:
    """The anchors of a page: its headings in lower case, without punctuation, with `-` for each blank."""
    headings = re.findall(r"^#+ (.*)$", prose(page), re.MULTILINE)
    return {re.sub(r"[^\w\- ]", "", heading.lower()).replace(" ", "-") for heading in headings}


def sources() -> Dict[str, List[Path]]:
    """The Rust sources and the definitions of all crates, by their names."""
    found: Dict[str, List[Path]] = {}
    for folder, folders, names in os.walk(CRATES):
        folders[:] = [it for it in folders if it not in ("out", "must-fail", "data")]
        for name in names:
            found.setdefault(name, []).append(Path(folder, name))
    return found


def python_code() -> Dict[str, str]:
    """The text of each Python source of the project, by its path."""
    folders = sorted({it.parts[0] for it in scratch.files_of_tree()} - {"crates"})
    return {str(it): (TOP / it).read_text(encoding="utf-8") for folder in folders for it in code.python_files(folder)}


def comments(text: str) -> Iterator[str]:
    """The docstrings and comments of a source."""
    for node in ast.walk(ast.parse(text)):
        if isinstance(node, (ast.Module, ast.ClassDef, ast.FunctionDef)):
            yield ast.get_docstring(node) or ""
    yield from (it.string for it in tokenize.generate_tokens(io.StringIO(text).readline) if it.type == tokenize.COMMENT)


def names_of(text: str) -> Set[str]:
    """The names that a source has in its code, without its docstrings and comments."""
    found: Set[str] = set()
    for node in ast.walk(ast.parse(text)):
        for field in ("id", "attr", "name", "arg", "asname", "module"):
            name = getattr(node, field, None)
            found.update(name.split(".") if isinstance(name, str) else ())
        if isinstance(node, ast.Constant) and isinstance(node.value, str) and re.fullmatch(r"[\w.-]+", node.value):
            found.update(re.findall(r"\w+", node.value))
    return found


def promises() -> Iterator[List[str]]:
    """The lines of `docs/data/wrong_bodies.tsv`: a contract, its crate, a wrong body, worked rows, what the body does."""
    lines = (TOP / "docs" / "data" / "wrong_bodies.tsv").read_text(encoding="utf-8").splitlines()
    for line in lines[1:]:
        yield line.split("\t")


class Cited(unittest.TestCase):
    """Each thing that a page cites is there."""

    def setUp(self) -> None:
        self.sources = sources()

    def named(self, name: str) -> List[Path]:
        """The files whose path ends with the name."""
        return [it for it in self.sources.get(Path(name).name, []) if ("/" + it.as_posix()).endswith("/" + name)]

    def test_links(self) -> None:
        for page in pages():
            for link in LINK.findall(prose(page)):
                if not link.startswith("http"):
                    path, _, anchor = link.partition("#")
                    target = (page.parent / path).resolve() if path else page
                    self.assertTrue(target.exists(), "%s: %s" % (page.name, link))
                    self.assertTrue(not anchor or anchor in anchors(target), "%s: %s" % (page.name, link))

    def test_files_of_crates(self) -> None:
        for page in pages():
            for name in FILE.findall(prose(page)):
                self.assertTrue(self.named(name), "%s: %s" % (page.name, name))

    def test_items_of_files(self) -> None:
        for page in pages():
            text = prose(page)
            cited = FILE_WITH_ITEM.findall(text) + [(name, item) for item, name in ITEM_WITH_FILE.findall(text)]
            for name, item in cited:
                holding = [it for it in self.named(name) if re.search(r"\b%s\b" % item, it.read_text(encoding="utf-8"))]
                self.assertTrue(holding, "%s: %s in %s" % (page.name, item, name))

    def test_paths_and_constants_of_pages(self) -> None:
        files = {str(it) for it in scratch.files_of_tree()}
        tops = {it.partition("/")[0] for it in files if "/" in it}
        code_of_all = [*map(Path, python_code()), Path("packaging/action")]
        code_of_all += [it for some in self.sources.values() for it in some]
        names = {it for path in code_of_all for it in CONSTANT.findall((TOP / path).read_text(encoding="utf-8"))}
        for page, name in ((page, it) for page in pages() if page.name != OF_BEFORE for it in QUOTED.findall(prose(page))):
            if PATH.fullmatch(name) and name.partition("/")[0] in tops and not STANDS_FOR.search(name):
                self.assertTrue(list(TOP.glob(name.rstrip("/"))), "%s: %s" % (page.name, name))
            if CONSTANT.fullmatch(name) and name not in OTHERS:
                self.assertTrue(name in names, "%s: %s" % (page.name, name))

    def test_names_of_python_in_pages_and_comments(self) -> None:
        sources = python_code()
        known = {Path(it).stem for it in sources}.union(*map(names_of, sources.values()))
        files = {Path(it).name for it in map(str, scratch.files_of_tree())}
        cited: List[Tuple[str, str]] = []
        for path, text in sources.items():
            cited += [(path, it) for comment in comments(text) for it in QUOTED.findall(comment)]
        for path, name in cited:
            if CONSTANT.fullmatch(name) or DOTTED.fullmatch(name) and name not in files:
                self.assertEqual([it for it in name.split(".") if it not in known], [], "%s: %s" % (path, name))
            if PATH.fullmatch(name) and name.partition("/")[0] in FOLDERS and not STANDS_FOR.search(name):
                self.assertTrue(list(TOP.glob(name.rstrip("/"))), "%s: %s" % (path, name))

    def test_wrong_bodies_and_rows(self) -> None:
        data = "".join(it.read_text(encoding="utf-8") for it in (CRATES / "rows" / "data").glob("*.toml"))
        rows = set(re.findall(r'^name = "([^"]+)"', data, re.MULTILINE))
        for contract, crate, body, shown, _ in promises():
            self.assertTrue((CRATES / crate / "must-fail" / (body + ".edit")).is_file(), "%s of %s" % (body, crate))
            code = "".join(it.read_text(encoding="utf-8") for it in (CRATES / crate / "src").rglob("*.rt"))
            self.assertRegex(code, r"\b(fn|law|lemma) %s\b" % contract.rpartition(":")[2])
            if shown != "-":
                self.assertLessEqual(set(shown.split(", ")), rows)


if __name__ == "__main__":
    unittest.main()
