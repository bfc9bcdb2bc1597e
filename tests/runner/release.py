"""The part `release`: the programs of release/ as files: what they need of a machine, and how they are linked."""
from __future__ import annotations

import hashlib
import json
import os
import platform
import re
import shutil
import tempfile
from dataclasses import dataclass
from functools import partial
from pathlib import Path
from typing import Callable, Dict, List, Set, Tuple

from relint_build.program import MACHINES, PROGRAMS
from runner import elf, scratch
from runner.examples import FINDING
from runner.programs import TREE, Program, run_command
from runner.results import Failed, Result, Skipped

_SYMBOLS = 2
_BUILD_ID = ("GNU", 3)
_OLDEST_KERNEL = ("GNU", 1)
# The oldest kernel that each wheel's tag stands for: manylinux2014 is CentOS 7, whose kernel is 3.10.
_KERNEL_OF_TAGS = (3, 10)
# The system calls that the programs make, and the kernel that each came with, as the manual pages of Linux say. Where that is
# before 2.6.18, it is 2.6.0 here. On ARM64 all that are older came with the port, in 3.7.
_CALLS: Dict[str, Tuple[int, ...]] = {name: (2, 6, 0) for name in (
    "execve brk arch_prctl set_tid_address set_robust_list mprotect mmap munmap mremap read write open openat close fstat "
    "newfstatat lseek getdents64 exit exit_group rt_sigaction rt_sigprocmask readlink readlinkat madvise futex getpid gettid "
    "writev uname ioctl fcntl access faccessat").split()}
_CALLS.update({"prlimit64": (2, 6, 36), "getrandom": (3, 17), "statx": (4, 11), "rseq": (4, 18)})
# What is newer than the tags promise has to be missed without harm; the kernel's answer is then ENOSYS.
_NEWER = sorted(name for name, since in _CALLS.items() if since > _KERNEL_OF_TAGS)
_CALL = re.compile(r"^(?:\[pid +[0-9]+\] |[0-9]+ +)?([a-z_0-9]+)\(", re.MULTILINE)


@dataclass(frozen=True)
class Released:
    """A program of release/: its name, and the machine that it is for."""

    name: str
    machine: str

    @property
    def path(self) -> Path:
        return TREE / "release" / self.machine / self.name

    def said(self, key: str) -> str:
        """What release/INFO says of it under a key."""
        return info()[PROGRAMS[self.name] + key]

    def command(self, path: str = "") -> List[str]:
        """The words that run it here, from its own place or from another. Raises `Skipped`."""
        return command_for(self.machine, path or str(self.path))


def all_released() -> List[Released]:
    """The programs of release/ for all machines."""
    names = [it for it in PROGRAMS if any((TREE / "release" / machine / it).is_file() for machine in MACHINES)]
    return [Released(name, machine) for machine in MACHINES for name in names]


def info() -> Dict[str, str]:
    """The lines `KEY VALUE` of release/INFO."""
    lines = (TREE / "release" / "INFO").read_text(encoding="utf-8").splitlines()
    return {key: value for key, _, value in (line.partition(" ") for line in lines)}


def command_for(machine: str, program: str) -> List[str]:
    """The words that run a program for a machine here. Raises `Skipped`."""
    if platform.machine() in (machine, {"aarch64": "arm64", "x86_64": "amd64"}[machine]):
        return [program]
    emulator = "qemu-%s-static" % machine
    if not shutil.which(emulator):
        raise Skipped("the emulator %s isn't installed: tools/release-packages" % emulator)
    return [emulator, program]


def _require(holds: bool, why: str) -> None:
    if not holds:
        raise Failed(why)


def _is_hardened(one: Released) -> None:
    """Static, position-independent, with read-only relocations, and no page that is written and executed."""
    file = elf.Elf(one.path.read_bytes())
    dynamic, loads = file.dynamic(), file.of_kind(elf.LOAD)
    _require(file.machine == one.machine, "it is for another machine: " + file.machine)
    _require(file.is_position_independent, "it isn't position-independent")
    _require(not file.of_kind(elf.INTERPRETER) and elf.NEEDED not in dynamic, "it needs libraries of the system")
    both = elf.WRITE | elf.EXECUTE
    _require(all(it.rights & both != both for it in loads), "a page is writable and executable")
    stacks = file.of_kind(elf.STACK)
    _require(len(stacks) == 1 and not stacks[0].rights & elf.EXECUTE, "its stack is executable")
    _require(len(file.of_kind(elf.READ_ONLY_AFTER_START)) == 1, "no relocation becomes read-only")
    flags, more = dynamic.get(elf.FLAGS, 0), dynamic.get(elf.FLAGS_1, 0)
    wanted = elf.NOW | elf.PIE
    _require(bool(flags & elf.BIND_NOW) and more & wanted == wanted, "its relocations aren't made at the start")
    _require(elf.TEXT_RELOCATIONS not in dynamic and not flags & 4, "it has relocations in its code")
    _require(_SYMBOLS not in file.section_types(), "its symbols are left in it")


def _is_named(one: Released) -> None:
    """Its sum and size are those of INFO, and its build ID is the sum of the tree."""
    content = one.path.read_bytes()
    held = hashlib.sha256(content).hexdigest()
    _require(held == one.said("program-" + one.machine), "its SHA-256 isn't that of release/INFO")
    _require(str(len(content)) == one.said("size-" + one.machine), "its size isn't that of release/INFO")
    notes = {(name, kind): text for name, kind, text in elf.Elf(content).notes()}
    _require(notes[_BUILD_ID].hex() == one.said("sum"), "its build ID isn't the sum of release/INFO")
    oldest = tuple(notes[_OLDEST_KERNEL][at] for at in (4, 8))
    _require(oldest <= _KERNEL_OF_TAGS, "it needs Linux %d.%d, later than the wheel's tags promise" % oldest)


def _in_an_empty_root(one: Released) -> None:
    """A folder that holds only the program, and for another machine its emulator, as the root."""
    words = one.command("/program")
    with tempfile.TemporaryDirectory() as folder:
        shutil.copy(str(one.path), folder + "/program")
        if len(words) > 1:
            shutil.copy(str(shutil.which(words[0])), folder + "/emulator")
            words[0] = "/emulator"
        (Path(folder) / "bad.py").write_text(FINDING, encoding="utf-8")
        root = ["chroot", folder] if os.geteuid() == 0 else ["unshare", "--user", "--map-root-user", "chroot", folder]
        if not shutil.which(root[0]):
            raise Skipped("%s isn't installed" % root[0])
        for call, given, status, start in _IN_A_ROOT[one.name]:
            found = run_command([*root, *words, *call], TREE, given=given)
            if found.status != status and re.search("not permitted|Operation|denied", found.stderr):
                raise Skipped("no other root may be taken here: " + found.stderr.strip())
            right = found.status == status and found.stdout.startswith(start)
            _require(right, "it answers %r and %r" % (found.stdout, found.stderr))


# calls of each program in a root that has the file /bad.py, with the input, the status and the beginning of the answer
_IN_A_ROOT: Dict[str, List[Tuple[List[str], str, int, str]]] = {
    "relint": [(["cost", "a*", "aa"], "", 0, "steps 5 matched\n"),
               (["check", "--format", "brief", "/bad.py"], "", 1, "/bad.py:2:12: compile: exponential\n")],
    "relint-ask": [([], '{"ask":"spans","first":"a+","second":"aa*"}\n', 0, '{"answer":"same"}\n'), (["nothing"], "", 2, "")]}
# calls of each program, with their input
_RUNS: Dict[str, List[Tuple[List[str], str]]] = {
    "relint": [(words, "") for words in (
        ["check", "--format", "json", "examples"], ["class", r"(\w+,?)*"], ["cost", "a*", "aa"], ["sample", "1", "20"],
        ["prove", "(a|a)*b"], ["compare", "a*", "(?:a|b)*"], ["check", "not-there.py"], ["nothing"])],
    "relint-ask": [([], '{"ask":"class","pattern":"(a|a)*b"}\n{"ask":"spans","first":"a|ab","second":"ab|a"}\nno JSON\n'),
                   (["nothing"], "")]}


def _traced(one: Released, words: List[str], given: str, more: List[str]) -> Tuple[Set[str], Tuple[str, str, int]]:
    """The system calls of a run, and what it answers; `more` are options of strace."""
    command = one.command()
    with tempfile.TemporaryDirectory() as folder:
        if len(command) > 1:
            ran = run_command([command[0], "-strace", "-D", folder + "/calls", *command[1:], *words], TREE, given=given)
        elif shutil.which("strace"):
            ran = run_command(["strace", "-f", "-qq", "-o", folder + "/calls", *more, *command, *words], TREE, given=given)
        else:
            raise Skipped("strace isn't installed: tools/release-packages")
        calls = Path(folder) / "calls"
        text = calls.read_text(encoding="utf-8", errors="replace") if calls.is_file() else ""
        if not text:
            raise Skipped("the system calls can't be seen here: " + ran.stderr.strip()[:200])
        return set(_CALL.findall(text)), (ran.stdout, ran.stderr, ran.status)


def _asks_no_more_of_the_kernel(one: Released) -> None:
    """Each system call is one that the table knows."""
    made: Set[str] = set()
    for words, given in _RUNS[one.name]:
        made |= _traced(one, words, given, [])[0]
    unknown = sorted(made - set(_CALLS))
    _require(not unknown, "it makes system calls that the table doesn't have: " + ", ".join(unknown))


def _does_without_newer_calls(one: Released) -> None:
    """A kernel that answers each call that is newer than the tags promise as one that it doesn't know."""
    if len(one.command()) > 1:
        raise Skipped("the emulator can't refuse system calls")
    plain = Program(one.path)
    for words, given in _RUNS[one.name]:
        options = ["-e", "inject=%s:error=ENOSYS" % ",".join(_NEWER)]
        answer = plain.run(words, TREE, given=given)
        _require(_traced(one, words, given, options)[1] == (answer.stdout, answer.stderr, answer.status),
                 "it answers otherwise: " + " ".join(words))


def _runs_on_the_oldest_kernel(one: Released) -> None:
    """The emulator says that the kernel is the oldest that the file names, and the processor the oldest that it needs."""
    emulator = shutil.which("qemu-%s-static" % one.machine)
    if not emulator:
        raise Skipped("the emulator qemu-%s-static isn't installed: tools/release-packages" % one.machine)
    processor = {"x86_64": "Nehalem", "aarch64": "cortex-a53"}[one.machine]
    words = [emulator, "-r", "3.10.0", "-cpu", processor, str(one.path)]
    for call, given in _RUNS[one.name][:3]:
        ran = run_command([*words, *call], TREE, seconds=1200, given=given)
        _require(call == ["nothing"] or ran.status in (0, 1) and bool(ran.stdout),
                 "it ends with status %d: %s" % (ran.status, ran.stderr))


def _ends_well_in_narrow_memory() -> None:
    """With less memory than a run takes, the answer is whole, or the status 5 and nothing on standard output."""
    machine = next((it for it in MACHINES if len(_words_or_none(it)) == 1), "")
    _require(bool(machine), "no program is for this machine")
    words = [str(Released("relint", machine).path), "check", "--format", "json", "python/relint"]
    whole = run_command(words, TREE)
    statuses: Set[int] = set()
    for kilobytes in range(2_000, 40_000, 500):
        ran = run_command(["sh", "-c", 'ulimit -v %d; exec "$@"' % kilobytes, "", *words], TREE)
        if ran.status < 0 or ran.status > 125:
            _require(not statuses, "with %d kB it ends with status %d" % (kilobytes, ran.status))
            continue
        statuses.add(ran.status)
        right = ran.stdout == whole.stdout and ran.status == whole.status
        _require(right or (ran.status == 5 and not ran.stdout), "with %d kB it ends with status %d" % (kilobytes, ran.status))
    _require(statuses == {5, whole.status}, "the statuses are %s" % sorted(statuses))


def _words_or_none(machine: str) -> List[str]:
    try:
        return command_for(machine, "")
    except Skipped:
        return []


def _links_alike_in_two_folders() -> None:
    """The objects of release/ give the same programs in whatever folder."""
    missing = [it for it in MACHINES if not shutil.which(it + "-linux-gnu-gcc")]
    if missing or not shutil.which("xz"):
        raise Skipped("there is no compiler for %s, or no xz: tools/release-packages" % " and ".join(missing))
    with tempfile.TemporaryDirectory() as folder:
        for name in ("one", "another place"):
            copy = Path(folder) / name
            scratch.copy_tree(copy)
            ran = run_command([str(copy / "tools" / "release"), "--relink"], copy, together=True)
            _require(ran.status == 0, ran.stdout)
            if "linked with other packages" in ran.stdout:
                raise Skipped("other packages are here than release/INFO names")
            _require(ran.stdout.count("byte for byte") == len(all_released()), ran.stdout)


def _documents_agree() -> None:
    """The provenance and the bill name the programs of release/INFO."""
    said = info()
    statement = json.loads((TREE / "release" / "provenance.json").read_text(encoding="utf-8"))
    subjects = {it["name"]: it["digest"]["sha256"] for it in statement["subject"]}
    named = {it.path.relative_to(TREE).as_posix(): it.said("program-" + it.machine) for it in all_released()}
    _require(subjects == named, "the provenance names other programs")
    bill = json.loads((TREE / "release" / "sbom.cdx.json").read_text(encoding="utf-8"))
    about = bill["metadata"]["component"]
    _require((about["name"], about["version"]) == ("relint", said["version"]), "the bill is of another version")
    held = {it["hashes"][0]["content"] for it in about["components"]}
    _require(held == set(subjects.values()), "the bill names other programs")
    names = {it["name"] for it in bill["components"]}
    _require({"glibc", "clap", "unicode", "std"} <= names, "the bill leaves out what is linked")


def _check_passes() -> None:
    """`tools/release --check`, in an environment without the kit."""
    bare = {"PATH": "/usr/bin:/bin", "LC_ALL": "C"}
    ran = run_command([str(TREE / "tools" / "release"), "--check"], TREE, bare, together=True)
    if ran.status == 1 and "isn't of this tree" in ran.stdout:
        raise Skipped("release/ isn't of this tree")
    _require(ran.status == 0, ran.stdout)


def run(program: Program) -> Result:
    """Tries all programs of release/."""
    result = Result()
    if not all_released():
        result.skip("release", "there is no release/: tools/release makes it")
        return result
    tests: List[Tuple[str, Callable[[], None]]] = [
        ("tools/release --check", _check_passes), ("narrow memory", _ends_well_in_narrow_memory),
        ("linked in two folders", _links_alike_in_two_folders), ("provenance and bill", _documents_agree)]
    for one in all_released():
        for name, test in (("hardened", _is_hardened), ("named", _is_named), ("an empty root", _in_an_empty_root),
                           ("system calls", _asks_no_more_of_the_kernel), ("newer system calls", _does_without_newer_calls),
                           ("the oldest kernel and processor", _runs_on_the_oldest_kernel)):
            tests.append(("%s for %s: %s" % (one.name, one.machine, name), partial(test, one)))
    for title, test_of in tests:
        result.take(title, test_of)
    return result
