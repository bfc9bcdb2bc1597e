"""Notes each pattern that `re` or `regex` is asked to compile, in a program that `rlt record` runs.

Its folder comes first on Python's path, so it is run at the start of each Python; therefore it imports almost nothing. It
changes nothing else in the program: the module's own code still does the work in a frame of its own, so warnings name the same
place, and the function can still be pickled by its name. Another sitecustomize is run afterwards. Errors in taking notes are
silent.
"""
import _ast
import os
import sys

TYPE_CHECKING = False
if TYPE_CHECKING:
    from typing import Any, Set

WATCHED = ("re", "regex.regex", "regex._main")
# The largest number of patterns that a process notes, and the length of the longest.
MOST = 200000
LONGEST = 100000
ONLY_TREE = 0x400
NAME = "_relint_record"
FOLDER = os.environ.get("RELINT_RECORD", "")


class Notes:
    """Takes the notes of one process: a line for each new pattern at each place, written at once."""

    def __init__(self) -> None:
        self.seen: "Set[Any]" = set()
        self.file: "Any" = None
        self.process = 0

    def note(self, engine: str, module: "Any", pattern: "Any", flags: "Any") -> None:
        """Notes a pattern, with the function that was called and the place of the call. Never raises."""
        try:
            frame = sys._getframe(3)
            method = frame.f_code
            caller: "Any" = frame
            if frame.f_globals is module.__dict__ and frame.f_back is not None:
                caller = frame.f_back
            key = (pattern, flags, method, caller.f_code, caller.f_lineno)
            if key in self.seen:
                return
            self.seen.add(key)
            if isinstance(pattern, (str, bytes)):
                name = method.co_name if caller is not frame else "compile"
                self._write(engine, name, pattern, int(flags), caller.f_code.co_filename, caller.f_lineno)
        except Exception:
            pass

    def _write(self, engine: str, name: str, pattern: "Any", flags: int, path: str, line: int) -> None:
        said = "made"
        if len(self.seen) > MOST or len(pattern) > LONGEST:
            said, pattern, path = "left out", "", ""
        if path and not path.startswith("<"):
            path = os.path.abspath(path)
        sign, data = ("b", pattern) if isinstance(pattern, bytes) else ("s", pattern.encode("utf-8", "surrogatepass"))
        fields = (said, engine, name, str(flags), str(line), os.fsencode(path).hex(), sign + data.hex())
        if self.process != os.getpid():
            self.process = os.getpid()
            file = "{}-{}".format(self.process, os.urandom(4).hex())
            self.file = os.open(os.path.join(FOLDER, file), os.O_WRONLY | os.O_CREAT | os.O_APPEND | os.O_EXCL, 0o600)
        os.write(self.file, "\t".join(fields).encode("ascii") + b"\n")


class Loader:
    """Loads a module with its own loader, and then begins to watch it."""

    def __init__(self, inner: "Any") -> None:
        self.inner = inner

    def __getattr__(self, name: str) -> "Any":
        return getattr(self.inner, name)

    def create_module(self, spec: "Any") -> "Any":
        """Creates the module by its own loader."""
        return self.inner.create_module(spec)

    def exec_module(self, module: "Any") -> None:
        """Runs the module by its own loader, and begins to watch it."""
        module.__spec__.loader = module.__loader__ = self.inner
        self.inner.exec_module(module)
        watch(module)


class Finder:
    """Finds the modules to watch by the other finders, and gives them a loader that watches them."""

    def find_spec(self, name: str, path: "Any" = None, target: "Any" = None) -> "Any":
        """Returns what the other finders find, with a loader that watches; None if the module isn't to be watched."""
        if name not in WATCHED:
            return None
        finders: "Any" = sys.meta_path
        for finder in finders:
            if finder is not self and hasattr(finder, "find_spec"):
                spec = finder.find_spec(name, path, target)
                if spec is not None:
                    if spec.loader is not None:
                        spec.loader = Loader(spec.loader)
                    return spec
        return None


NOTES = Notes()


def watch(module: "Any") -> None:
    """Changes a module so that it notes each pattern that its functions are given."""
    inner: "Any" = getattr(module, "_compile", None)
    if inner is None or hasattr(module, NAME):
        return
    engine = module.__name__.split(".")[0]

    def note(pattern: "Any", flags: "Any") -> None:
        NOTES.note(engine, module, pattern, flags)

    setattr(module, NAME, note)
    try:
        module._compile = noting(module, inner)
    except Exception:
        module._compile = calling(inner, note)
    for name in ("__module__", "__qualname__", "__doc__"):
        setattr(module._compile, name, getattr(inner, name))


def noting(module: "Any", inner: "Any") -> "Any":
    """Compiles a module's function `_compile` again from its source, with a call in front that notes the pattern."""
    path, line = inner.__code__.co_filename, inner.__code__.co_firstlineno
    with open(path, "rb") as file:
        tree: "Any" = compile(file.read(), path, "exec", ONLY_TREE, True)
    found = [it for it in tree.body if isinstance(it, _ast.FunctionDef) and it.name == "_compile" and it.lineno == line]
    pattern, flags = (it.arg for it in found[0].args.args[:2])
    text = "{}{}({}, {})".format("\n" * (line - 1), NAME, pattern, flags)
    call: "Any" = compile(text, path, "exec", ONLY_TREE, True)
    found[0].body[:0] = call.body
    tree.body[:] = found
    names: "Any" = {}
    exec(compile(tree, path, "exec", 0, True), module.__dict__, names)  # (the def of that one function)
    return names["_compile"]


def calling(inner: "Any", note: "Any") -> "Any":
    """Makes a function that notes what it is given and calls a module's function, for a module without a source."""

    def _compile(pattern: "Any", flags: "Any", *more: "Any", **named: "Any") -> "Any":
        note(pattern, flags)
        return inner(pattern, flags, *more, **named)

    return _compile


def go_on() -> None:
    """Runs the sitecustomize that Python would have run without this one, if there is one."""
    here = os.path.dirname(os.path.abspath(__file__))
    sys.path[:] = [it for it in sys.path if os.path.abspath(it) != here]
    from importlib.machinery import PathFinder

    spec = PathFinder.find_spec("sitecustomize", sys.path)
    if spec is None or spec.loader is None:
        return
    from importlib.util import module_from_spec

    module = module_from_spec(spec)
    sys.modules["sitecustomize"] = module
    spec.loader.exec_module(module)


def main() -> None:
    """Watches the modules that are imported already, and those that will be."""
    if FOLDER and os.path.isdir(FOLDER):
        sys.meta_path.insert(0, Finder())
        for name in WATCHED:
            if name in sys.modules:
                watch(sys.modules[name])
    go_on()


main()
