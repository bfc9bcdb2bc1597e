"""Writes two documents on the programs in release/: where they come from (in-toto, SLSA), and what is in them (CycloneDX).

Both are JSON, without the time, the folder and the machine of the build. `top` is the top of the repository, and `kit` the
folder of the kit, which has the tools and the crates that the programs are built with. `info` has the values of release/INFO
by their keys; a function raises KeyError if one that it needs isn't there, and OSError if a file can't be read.
"""
from __future__ import annotations

import hashlib
import json
import sys
from pathlib import Path
from typing import Any, Dict, Iterator, List, Set, Tuple

from .program import MACHINES, PROGRAMS, programs_of, read_info

_KIT_FILES = ("bin/rattle", "bin/rattle-link", "toolchain/bin/clang", "c/libos_c.a", "c/liblibc_c.a")
_CODE, _DATA = {"LICENSE-MIT": "MIT", "LICENSE-APACHE": "Apache-2.0"}, "LICENSE-UNICODE"
# What of Debian's packages is linked into the programs, by the beginning of the package's name.
_LINKED = {
    "libc6-dev": ("glibc", "LGPL-2.1-or-later"),
    "libgcc-": ("libgcc", "GPL-3.0-or-later WITH GCC-exception-3.1"),
}


def sum_of(file: Path) -> str:
    """Returns the SHA-256 of a file, in hexadecimal."""
    return hashlib.sha256(file.read_bytes()).hexdigest()


def files(top: Path, info: Dict[str, str]) -> Iterator[Tuple[str, str]]:
    """Yields each program of `top` for each machine: its path from `top`, with the SHA-256 that `info` has for it.

    Raises KeyError if `info` lacks a program. Whether the files are there isn't looked at.
    """
    for machine in MACHINES:
        for program in programs_of(top):
            yield f"release/{machine}/{program}", info[f"{PROGRAMS[program]}program-{machine}"]


def packages(info: Dict[str, str], machine: str) -> Dict[str, str]:
    """Returns the versions of the Debian packages that the programs for a machine were linked with, by their names."""
    pairs = (it.partition("=") for it in info["packages-" + machine].split())
    return {name: version for name, _, version in pairs}


def purl(name: str, version: str) -> str:
    """Returns the package URL of a Debian package, such as "pkg:deb/debian/libc6-dev@2.36-9"; `+` and `:` are escaped."""
    return f"pkg:deb/debian/{name}@{version.replace('+', '%2B').replace(':', '%3A')}"


def materials(top: Path, kit: Path, info: Dict[str, str]) -> Iterator[Dict[str, Any]]:
    """Yields what the programs were made from, as objects of JSON: crates, scripts, tools of the kit, and Debian packages.

    Each has its SHA-256, except the packages, which have their package URLs.
    """
    for program in programs_of(top):
        yield {"name": f"crates of {program}", "digest": {"sha256": info[f"{PROGRAMS[program]}sum"]},
               "annotations": {"how": f"tree_sum of release/tree.sh, over crates.txt and the crates that {program} uses"}}
    for name in ("release/link.sh", "packaging/glue.c"):
        yield {"name": name, "digest": {"sha256": sum_of(top / name)}}
    for name in _KIT_FILES:
        yield {"name": f"{info['kit'].split()[0]}/{name}", "digest": {"sha256": sum_of(kit / name)}}
    held = {name: version for machine in MACHINES for name, version in packages(info, machine).items()}
    for name, version in sorted(held.items()):
        yield {"name": name, "uri": purl(name, version)}


def provenance(top: Path, kit: Path, room: Path, info: Dict[str, str]) -> Dict[str, Any]:
    """Returns the statement of in-toto whose predicate is SLSA's provenance, as an object of JSON.

    `room` has a file MACHINE/PROGRAM.verdict for each program, with the line that the verifier printed for it.
    """
    verdicts = {f"{program}-{it}": (room / it / f"{program}.verdict").read_text(encoding="utf-8").strip()
                for it in MACHINES for program in programs_of(top)}
    return {
        "_type": "https://in-toto.io/Statement/v1",
        "subject": [{"name": name, "digest": {"sha256": one}} for name, one in files(top, info)],
        "predicateType": "https://slsa.dev/provenance/v1",
        "predicate": {
            "buildDefinition": {
                "buildType": "urn:relint:tools/release:1",
                "externalParameters": {"version": info["version"]},
                "internalParameters": {"kit": info["kit"], "commands": [".ci/run", "tools/release"]},
                "resolvedDependencies": list(materials(top, kit, info)),
            },
            "runDetails": {
                "builder": {"id": "urn:relint:tools/release"},
                "byproducts": [{"name": f"verdict-{it}", "annotations": {"line": line}} for it, line in verdicts.items()],
            },
        },
    }


def kit_crates(top: Path, kit: Path) -> List[str]:
    """Returns the names of the kit's crates that the programs use, directly or through other crates, sorted; `std` is one."""
    lines = [line.partition("#")[0] for line in (top / "crates.txt").read_text(encoding="utf-8").splitlines()]
    named = {name.strip(): rest.split() for name, _, rest in (line.partition(":") for line in lines)}
    left, found = {"std"}, set()
    queue = [it.replace("-", "_") for it in programs_of(top)]
    reached: Set[str] = set(queue)
    while queue:
        for it in named[queue.pop()]:
            if it not in named:
                left.add(it)
            elif it not in reached:
                reached.add(it)
                queue.append(it)
    while left:
        name = left.pop()
        found.add(name)
        left |= used_by(kit, name) - found
    return sorted(found)


def used_by(kit: Path, crate: str) -> Set[str]:
    """Returns the names of the crates that a crate of the kit uses directly. Raises OSError if its library isn't there."""
    with (kit / "rlibs" / f"{crate}.rlib" / "format").open(encoding="utf-8") as lines:
        return {line.split()[1] for line in lines if line.startswith("dep ")}


def licence(expression: str) -> List[Dict[str, Any]]:
    """Returns the value of `licenses` in CycloneDX for a licence: an expression if it has a blank, otherwise a single name."""
    return [{"expression": expression}] if " " in expression else [{"license": {"id": expression}}]


def kit_component(kit: Path, crate: str, version: str) -> Dict[str, Any]:
    """Returns the component of CycloneDX for a crate of the kit; `version` is the kit's.

    Its licences are those whose texts are in the crate's folder. If `expression_of` doesn't know them, the files are named; if
    there are none, there is no key `licenses`.
    """
    component: Dict[str, Any] = {"type": "library", "bom-ref": f"kit/{crate}", "group": "rattle", "name": crate}
    component["version"] = version
    files = sorted(it.name for it in (kit / "rattle" / crate).glob("LICENSE*"))
    terms = expression_of(files)
    if terms:
        component["licenses"] = licence(terms)
    elif files:
        component["licenses"] = [{"license": {"name": f"{crate}/{it} of the kit"}} for it in files]
    return component


def expression_of(files: List[str]) -> str:
    """Returns the licence that files with these names give, such as "MIT OR Apache-2.0"; "" if no name is known.

    The licences of code are joined by OR, and the one of Unicode's data is added by AND.
    """
    code = [_CODE[it] for it in files if it in _CODE]
    parts = [f"({' OR '.join(code)})" if len(code) > 1 and _DATA in files else " OR ".join(code)] if code else []
    return " AND ".join(parts + (["Unicode-3.0"] if _DATA in files else []))


def linked(info: Dict[str, str]) -> Iterator[Dict[str, Any]]:
    """Yields the components of CycloneDX for what is linked into the programs from Debian's packages, machine by machine."""
    for machine in MACHINES:
        for package, version in packages(info, machine).items():
            for start, (name, terms) in _LINKED.items():
                if package.startswith(start):
                    yield {"type": "library", "bom-ref": f"{machine}/{name}", "name": name, "version": version,
                           "licenses": licence(terms), "purl": purl(package, version)}


def bill(top: Path, kit: Path, info: Dict[str, str]) -> Dict[str, Any]:
    """Returns the CycloneDX document on what is in the programs, as an object of JSON."""
    components = [kit_component(kit, it, info["kit"].split()[0]) for it in kit_crates(top, kit)] + list(linked(info))
    parts = [{"type": "file", "bom-ref": name, "name": name, "hashes": [{"alg": "SHA-256", "content": one}]}
             for name, one in files(top, info)]
    about = {"type": "application", "bom-ref": "relint", "name": "relint", "version": info["version"],
             "licenses": licence("MIT"), "components": parts}
    uses = {"ref": "relint", "dependsOn": [str(it["bom-ref"]) for it in components]}
    return {"bomFormat": "CycloneDX", "specVersion": "1.5", "version": 1, "metadata": {"component": about},
            "components": components, "dependencies": [uses]}


def write(folder: Path, name: str, document: Dict[str, Any]) -> None:
    """Writes a document as indented JSON to the file `name` in the folder, in place of what is there."""
    (folder / name).write_text(json.dumps(document, indent=2) + "\n", encoding="utf-8")


def main(words: List[str]) -> int:
    """Writes provenance.json and sbom.cdx.json, and returns the exit status 0.

    `words` are four paths: the top of the repository, the kit, the folder with the verdicts, and the folder to write to.
    Raises ValueError if there are more or fewer.
    """
    top, kit, room, to = map(Path, words)
    info = read_info(top / "release/INFO")
    write(to, "provenance.json", provenance(top, kit, room, info))
    write(to, "sbom.cdx.json", bill(top, kit, info))
    return 0


if __name__ == "__main__":
    sys.exit(main(sys.argv[1:]))
