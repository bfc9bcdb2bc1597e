"""The package as a whole: imports go one way, functions take few arguments, and the parent of workers starts no thread."""
from __future__ import annotations

import ast
import unittest
from pathlib import Path
from typing import Dict, Iterator, List, Tuple

PACKAGE = Path(__file__).resolve().parents[2] / "python" / "relint"
# The modules and packages in the order in which they may import one another: each those before it, and those of its own row.
LAYERS = (("base",), ("options", "engine.program"), ("git",), ("files",), ("engine",), ("code",), ("trials", "mend"),
          ("stages",), ("show",), ("cli", "__main__", "server", "flake8_plugin", "pylsp_plugin"))
MOST_ARGUMENTS = 5
THREADS = ("threading", "concurrent.futures", "pickle", "multiprocessing")
# What runs in programs of others, and has to stand alone.
ALONE = ("trials/watch/",)


def sources() -> Iterator[Tuple[str, ast.Module]]:
    """Yields the name of each module, as `engine.ask`, with its tree."""
    for path in sorted(PACKAGE.rglob("*.py")):
        inside = path.relative_to(PACKAGE).as_posix()
        if not inside.startswith(ALONE):
            name = inside[:-3].replace("/", ".")
            yield name[:-9] if name.endswith(".__init__") else name, ast.parse(path.read_text(encoding="utf-8"))


def layer(name: str) -> int:
    """Returns the number of a module's layer; the longest name counts."""
    ranks = {it: at for at, row in enumerate(LAYERS) for it in row}
    fitting = [it for it in ranks if name == it or name.startswith(f"{it}.")]
    return ranks[max(fitting, key=len)] if fitting else -1


def imported(name: str, node: ast.ImportFrom) -> List[str]:
    """Returns the modules of this package that a statement of a module imports."""
    if not node.level:
        return []
    home = name.split(".")[:-1]
    base = home[:len(home) - node.level + 1] + (node.module.split(".") if node.module else [])
    return [".".join([*base, it.name]) for it in node.names] if not node.module else [".".join(base)]


class Layers(unittest.TestCase):
    """Rules that hold for all modules."""

    def test_imports_go_one_way(self) -> None:
        wrong = []
        for name, tree in sources():
            for node in ast.walk(tree):
                for other in imported(name, node) if isinstance(node, ast.ImportFrom) else []:
                    if layer(other) > layer(name):
                        wrong.append(f"{name} imports {other}")
        self.assertEqual(wrong, [])

    def test_only_cli_imports_inside_functions(self) -> None:
        found: Dict[str, int] = {}
        for name, tree in sources():
            for function in ast.walk(tree):
                if isinstance(function, (ast.FunctionDef, ast.AsyncFunctionDef)):
                    count = sum(isinstance(it, (ast.Import, ast.ImportFrom)) for it in ast.walk(function))
                    if count:
                        found[name] = found.get(name, 0) + count
        self.assertEqual(set(found) - {"cli"}, set(), found)

    def test_functions_take_few_arguments(self) -> None:
        wrong = []
        for name, tree in sources():
            for node in ast.walk(tree):
                if isinstance(node, (ast.FunctionDef, ast.AsyncFunctionDef)):
                    given = [it.arg for it in (*node.args.posonlyargs, *node.args.args, *node.args.kwonlyargs)]
                    count = len([it for it in given if it not in ("self", "cls")])
                    if count > MOST_ARGUMENTS:
                        wrong.append(f"{name}.{node.name}: {count}")
        self.assertEqual(wrong, [])

    def test_no_threads(self) -> None:
        wrong = []
        for name, tree in sources():
            for node in ast.walk(tree):
                names = [it.name for it in node.names] if isinstance(node, ast.Import) else []
                names += [node.module or ""] if isinstance(node, ast.ImportFrom) and not node.level else []
                wrong += [f"{name} imports {it}" for it in names if it in THREADS]
        self.assertEqual([it for it in wrong if not it.startswith("pylsp_plugin")], [])


if __name__ == "__main__":
    unittest.main()
