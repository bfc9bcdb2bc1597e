"""Reads the programs in release/, and checks that they are there, undamaged and built from the sources as they are.

A machine is one of MACHINES, the processors for which there are programs. release/INFO has the SHA-256 of each program.
"""
from __future__ import annotations

import hashlib
import subprocess
import sysconfig
from dataclasses import dataclass
from pathlib import Path
from typing import Dict, List

MACHINES = ("x86_64", "aarch64")
# The programs that a tree can have, by their files in release/, each with what the keys of release/INFO about it begin with.
PROGRAMS = {"relint": "", "relint-ask": "ask-"}
# What a static program runs with: any glibc since the oldest that pip has a name for with both machines, and any musl.
PLATFORMS = ("manylinux_2_17", "manylinux2014", "musllinux_1_1")


class Refusal(Exception):
    """Raised if no wheel can be built here; the message says why, in one line."""


@dataclass(frozen=True)
class Programs:
    """The bytes of each program by its name, and the machine that runs them."""

    contents: Dict[str, bytes]
    machine: str

    @property
    def tag(self) -> str:
        """The tag in the name of a wheel that has them: any Python 3, no ABI, and each platform, with dots between these."""
        return "py3-none-" + ".".join(f"{it}_{self.machine}" for it in PLATFORMS)

    @property
    def tags(self) -> List[str]:
        """The tags that `tag` stands for: one for each of PLATFORMS, in order."""
        return [f"py3-none-{it}_{self.machine}" for it in PLATFORMS]


def platform_here() -> str:
    """Returns the platform that this Python was built for, such as "linux-x86_64"."""
    return sysconfig.get_platform()


def machine_here() -> str:
    """Returns the one of MACHINES that this Python was built for.

    Raises `Refusal` if it was built for another machine or another system than Linux.
    """
    platform = platform_here()
    for machine in MACHINES:
        if platform == f"linux-{machine}":
            return machine
    raise Refusal(f"relint runs on Linux on {' and '.join(MACHINES)}, and this Python is for {platform}: "
                  "use a Linux container, or on Windows also WSL")


def read_info(file: Path) -> Dict[str, str]:
    """Returns the values in a file of lines `KEY VALUE`, by their keys; of equal keys, the last one counts.

    A line without a blank is a key with the value "". Raises OSError if the file can't be read.
    """
    pairs = [line.partition(" ") for line in file.read_text(encoding="utf-8").splitlines()]
    return {key: value for key, _, value in pairs}


def programs_of(top: Path) -> List[str]:
    """Returns the names of the programs of the repository at `top`: those of PROGRAMS whose crates are in its crates.txt.

    Raises OSError if crates.txt can't be read.
    """
    lines = (top / "crates.txt").read_text(encoding="utf-8").splitlines()
    crates = {line.partition(":")[0].strip() for line in lines if ":" in line}
    return [it for it in PROGRAMS if it.replace("-", "_") in crates]


def read_programs(top: Path, machine: str) -> Programs:
    """Returns the programs for a machine from the folder release/ of `top`.

    Raises Refusal if a program or release/INFO can't be read, or if a program's SHA-256 isn't the one in release/INFO.
    Raises OSError if crates.txt can't be read.
    """
    return Programs({it: _read_program(top, machine, it) for it in programs_of(top)}, machine)


def _read_program(top: Path, machine: str, program: str) -> bytes:
    """Returns the bytes of a program for a machine; `program` is its name. Raises Refusal as `read_programs` does."""
    name = f"release/{machine}/{program}"
    try:
        content, info = (top / name).read_bytes(), read_info(top / "release/INFO")
    except OSError as error:
        raise Refusal(f"{error.filename} can't be read, so there is no program to install: {error.strerror}") from error
    if hashlib.sha256(content).hexdigest() != info.get(f"{PROGRAMS[program]}program-{machine}"):
        raise Refusal(f"{name} isn't the file that release/INFO names, so one of the two is damaged: get both anew")
    return content


def check_release(top: Path) -> None:
    """Raises Refusal unless `tools/release --check` says that release/ was built from the sources as they are.

    `top` is the top of the repository. Raises it too if that script can't be run.
    """
    try:
        ran = subprocess.run([str(top / "tools/release"), "--check"], stdin=subprocess.DEVNULL, stdout=subprocess.PIPE,
                             stderr=subprocess.STDOUT)
    except OSError as error:
        raise Refusal(f"tools/release can't be run to check release/: {error.strerror}") from error
    if ran.returncode != 0:
        said = ran.stdout.decode("utf-8", "backslashreplace").strip().splitlines()
        why = said[-1].partition(": ")[2] if said else f"tools/release --check ended with status {ran.returncode}"
        raise Refusal(f"no wheel is built, because {why}")
