"""Builds the wheel and the sdist of relint: a build backend (PEP 517, PEP 660) that needs only Python's standard library.

Before Python 3.11 it also needs tomli, to read TOML. A wheel has the unchanged programs of release/ for one machine, the
Python package python/relint with its commands, the man page, and the documents that say where the programs come from. An
`Entry` is a file of an archive. The hooks, which are the functions with the argument `config_settings`, are called by pip and
other installers; they don't use it. To end the build is to do what `stop` does. If a file of the repository can't be read,
OSError is raised.
"""
from __future__ import annotations

import sys
from pathlib import Path
from typing import Any, Dict, List, NoReturn, Optional

from .archive import LIST, Entry, entries_of, files_of, write_sdist, write_wheel
from .metadata import Project, read_project
from .program import MACHINES, Programs, Refusal, check_release, machine_here, read_programs

Settings = Optional[Dict[str, Any]]
TOP = Path(__file__).resolve().parents[2]
MAN_PAGE = "docs/relint.1"
# What the dist-info folder has of the repository, by its name there.
COPIED = {
    "LICENSE": "LICENSE",
    "LICENSE-linked": "release/LICENSES.md",
    "provenance.json": "release/provenance.json",
    "sboms/relint.cdx.json": "release/sbom.cdx.json",
}
# Where each shell looks for completions, below the folder share.
COMPLETIONS = {
    "bash": "bash-completion/completions", "zsh": "zsh/site-functions", "fish": "fish/vendor_completions.d",
}


def stop(why: Refusal) -> NoReturn:
    """Prints `why` in one line to standard error, and raises SystemExit with the status 1."""
    print(f"relint: {why}", file=sys.stderr)
    raise SystemExit(1)


def checked_programs(machine: str = "") -> Programs:
    """Returns the programs of release/ for a machine, or for the one that this Python is for if `machine` is "".

    Ends the build if one of them is missing or damaged, or if release/ wasn't built from the sources as they are.
    """
    try:
        programs = read_programs(TOP, machine or machine_here())
        check_release(TOP)
    except Refusal as why:
        stop(why)
    return programs


def about(project: Project, programs: Programs) -> List[Entry]:
    """Returns the files of the wheel's folder `dist-info`, except RECORD; entry_points.txt is left out if it has no text.

    Besides the files of COPIED, these are METADATA and WHEEL, made from `project` and the tags of `programs`.
    """
    folder = f"{project.full_name}.dist-info"
    tags = "".join(f"Tag: {it}\n" for it in programs.tags)
    wheel = f"Wheel-Version: 1.0\nGenerator: relint_build\nRoot-Is-Purelib: false\n{tags}"
    texts = {"METADATA": project.metadata(), "WHEEL": wheel, "entry_points.txt": project.entry_points()}
    entries = [Entry(f"{folder}/{name}", text.encode()) for name, text in texts.items() if text]
    return entries + [Entry(f"{folder}/{name}", (TOP / source).read_bytes()) for name, source in COPIED.items()]


def data(project: Project, programs: Programs) -> List[Entry]:
    """Returns the files that an installer puts outside of the Python packages: programs, man page, completions for shells.

    The programs are those of `programs`. The man page and the completions are left out if the repository doesn't have them.
    """
    folder = f"{project.full_name}.data"
    entries = [Entry(f"{folder}/scripts/{it}", content, is_program=True) for it, content in programs.contents.items()]
    if (TOP / MAN_PAGE).is_file():
        entries.append(Entry(f"{folder}/data/share/man/man1/relint.1", (TOP / MAN_PAGE).read_bytes()))
    for shell, place in COMPLETIONS.items():
        for file in sorted((TOP / "packaging/completions" / shell).glob("[!.]*")):
            entries.append(Entry(f"{folder}/data/share/{place}/{file.name}", file.read_bytes()))
    return entries


def modules() -> List[Entry]:
    """Returns the files of the Python package, and the pages docs/*.md, which get the folder `docs` in the package.

    Ends the build if there is no file that may be packed.
    """
    names = listed()
    package = [it for it in names if it.startswith("python/relint/")]
    found = [Entry(it.path[len("python/"):], it.content) for it in entries_of(TOP, package)]
    pages = [it for it in names if it.startswith("docs/") and it.endswith(".md")]
    return [*found, *(Entry(f"relint/{it.path}", it.content) for it in entries_of(TOP, pages))]


def listed() -> List[str]:
    """Returns the paths, relative to TOP and sorted, of the files of the repository that a wheel or an sdist may have.

    Ends the build if there is no such file.
    """
    names = files_of(TOP)
    if not names:
        stop(Refusal(f"no file may be packed: git tracks none here, and {LIST} names none"))
    return names


def make_wheel(folder: str, contents: Optional[List[Entry]] = None, machine: str = "") -> str:
    """Writes the wheel for a machine into `folder`, and returns its name; "" is the machine that this Python is for.

    If `contents` isn't None, the wheel has these files in place of the Python package and its pages. A file of that name is
    replaced. Ends the build as `checked_programs` and `modules` do.
    """
    project, programs = read_project(TOP), checked_programs(machine)
    name = f"{project.full_name}-{programs.tag}.whl"
    entries = [*(modules() if contents is None else contents), *data(project, programs), *about(project, programs)]
    write_wheel(Path(folder) / name, entries, f"{project.full_name}.dist-info/RECORD")
    return name


def prepare_metadata_for_build_wheel(metadata_directory: str, config_settings: Settings = None) -> str:
    """Writes the folder `dist-info` of the wheel, without RECORD, into `metadata_directory`, and returns the folder's name.

    Ends the build as `checked_programs` does.
    """
    project, programs = read_project(TOP), checked_programs()
    for entry in about(project, programs):
        file = Path(metadata_directory) / entry.path
        file.parent.mkdir(parents=True, exist_ok=True)
        file.write_bytes(entry.content)
    return f"{project.full_name}.dist-info"


def build_wheel(wheel_directory: str, config_settings: Settings = None, metadata_directory: Optional[str] = None) -> str:
    """Writes the wheel for this machine into `wheel_directory`, and returns its name; `metadata_directory` isn't used."""
    return make_wheel(wheel_directory)


def build_editable(wheel_directory: str, config_settings: Settings = None, metadata_directory: Optional[str] = None) -> str:
    """Writes a wheel that puts the folder python/ of this repository on Python's path in place of a copy; returns its name.

    The programs in it are copies. `metadata_directory` isn't used.
    """
    return make_wheel(wheel_directory, [Entry("relint-here.pth", f"{TOP / 'python'}\n".encode())])


def build_sdist(sdist_directory: str, config_settings: Settings = None) -> str:
    """Writes the sdist into `sdist_directory`, and returns its name. It has all files that may be packed, and PKG-INFO."""
    project = read_project(TOP)
    name = f"{project.full_name}.tar.gz"
    entries = [it for it in entries_of(TOP, listed()) if it.path != "PKG-INFO"]
    write_sdist(Path(sdist_directory) / name, [*entries, Entry("PKG-INFO", project.metadata().encode())], project.full_name)
    return name


def build_all(folder: str) -> List[str]:
    """Writes a wheel for each of MACHINES, in order, and the sdist into `folder`, and returns their names in this order."""
    return [*(make_wheel(folder, machine=it) for it in MACHINES), build_sdist(folder)]


def get_requires_for_build_wheel(config_settings: Settings = None) -> List[str]:
    """Returns the packages that have to be installed to build a wheel or an sdist, besides those in pyproject.toml: none."""
    return []


get_requires_for_build_sdist = get_requires_for_build_editable = get_requires_for_build_wheel
prepare_metadata_for_build_editable = prepare_metadata_for_build_wheel
