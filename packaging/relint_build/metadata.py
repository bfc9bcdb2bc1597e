"""Reads what pyproject.toml and the file VERSION say of the project, and makes its core metadata for wheels and sdists.

An entry point is a name and what it stands for, `module:function`: a command or a plugin. The plugins of a tool are a group.
"""
from __future__ import annotations

import sys
from dataclasses import dataclass
from pathlib import Path
from typing import Any, Dict, Mapping

if sys.version_info >= (3, 11):
    import tomllib
else:
    import tomli as tomllib


def read_toml(file: Path) -> Dict[str, Any]:
    """Returns the table in a TOML file. Raises OSError if it can't be read, and ValueError if it isn't UTF-8 or TOML."""
    document: Dict[str, Any] = tomllib.loads(file.read_text(encoding="utf-8"))
    return document


@dataclass(frozen=True)
class Project:
    """What a repository says of itself.

    `table` is the table `project` of pyproject.toml, and `description` the text of the file that its key `readme` names.
    `scripts` has the commands by their names, and `plugins` the plugins by their group and name; both only if the module is
    there.
    """

    name: str
    version: str
    table: Dict[str, Any]
    description: str
    scripts: Dict[str, str]
    plugins: Dict[str, Dict[str, str]]

    @property
    def full_name(self) -> str:
        """The name and the version with a hyphen between them, with which the file names of wheels and sdists begin."""
        return f"{self.name}-{self.version}"

    def metadata(self) -> str:
        """Returns the core metadata of version 2.1: the text of METADATA in a wheel, and of PKG-INFO in an sdist.

        Raises KeyError if the table has no description, keywords, license text, classifiers or requires-python.
        """
        fields = [("Metadata-Version", "2.1"), ("Name", self.name), ("Version", self.version)]
        fields += [("Summary", self.table["description"]), ("Keywords", ",".join(self.table["keywords"]))]
        fields += [("License", self.table["license"]["text"]), ("License-File", "LICENSE"), ("License-File", "LICENSE-linked")]
        fields += [("Classifier", it) for it in self.table["classifiers"]]
        fields += [("Project-URL", f"{label}, {url}") for label, url in self.table.get("urls", {}).items()]
        fields += [("Requires-Python", self.table["requires-python"])]
        fields += [("Requires-Dist", it) for it in self.table.get("dependencies", [])]
        for extra, needed in self.table.get("optional-dependencies", {}).items():
            fields += [("Provides-Extra", extra), *(("Requires-Dist", f'{it} ; extra == "{extra}"') for it in needed)]
        fields += [("Description-Content-Type", "text/markdown")]
        return "".join(f"{key}: {value}\n" for key, value in fields) + f"\n{self.description}"

    def entry_points(self) -> str:
        """Returns the text of entry_points.txt, with the commands and then each group of plugins, or "" if there are none."""
        groups = {"console_scripts": self.scripts, **self.plugins}
        tables = [(f"[{group}]\n", *(f"{name} = {it}\n" for name, it in held.items()))
                  for group, held in groups.items() if held]
        return "\n".join(map("".join, tables))


def has_module(top: Path, target: str) -> bool:
    """Returns whether the module of an entry point `target` is in the folder python/ of `top`, as a file or a package."""
    path = top / "python" / target.partition(":")[0].replace(".", "/")
    return path.with_suffix(".py").is_file() or (path / "__init__.py").is_file()


def present(top: Path, points: Mapping[str, str]) -> Dict[str, str]:
    """Returns those of the entry points, by their names, whose modules are in the folder python/ of `top`."""
    return {name: it for name, it in points.items() if has_module(top, it)}


def read_project(top: Path) -> Project:
    """Returns what the repository in the folder `top` says of itself.

    Raises OSError if a file can't be read, ValueError if pyproject.toml isn't TOML, and KeyError if it has no project name,
    readme or scripts.
    """
    table = read_toml(top / "pyproject.toml")["project"]
    version = (top / "VERSION").read_text(encoding="utf-8").strip()
    description = (top / str(table["readme"])).read_text(encoding="utf-8")
    plugins = {group: present(top, points) for group, points in table.get("entry-points", {}).items()}
    return Project(table["name"], version, table, description, present(top, table["scripts"]), plugins)
