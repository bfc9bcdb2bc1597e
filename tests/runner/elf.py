"""What an ELF file of 64 bits says of itself: segments, the dynamic section, notes."""
from __future__ import annotations

import struct
from dataclasses import dataclass
from typing import Dict, Iterator, List, Tuple

LOAD, DYNAMIC, INTERPRETER, NOTE = 1, 2, 3, 4
STACK, READ_ONLY_AFTER_START = 0x6474E551, 0x6474E552
EXECUTE, WRITE = 1, 2
NEEDED, TEXT_RELOCATIONS, FLAGS, FLAGS_1 = 1, 22, 30, 0x6FFFFFFB
BIND_NOW, NOW, PIE = 8, 1, 0x08000000
MACHINES = {62: "x86_64", 183: "aarch64"}


@dataclass(frozen=True)
class Segment:
    """A program header: its kind, its rights (a sum of `EXECUTE`, `WRITE` and 4), and where its bytes are in the file."""

    kind: int
    rights: int
    offset: int
    size: int


@dataclass(frozen=True)
class Elf:
    """An ELF file that is read whole; little-endian, of 64 bits."""

    content: bytes

    def _header(self) -> Tuple[int, ...]:
        if self.content[:6] != b"\x7fELF\x02\x01":
            raise ValueError("no ELF file of 64 bits")
        return struct.unpack_from("<HHIQQQIHHHHHH", self.content, 16)

    @property
    def machine(self) -> str:
        """The processor that it is for."""
        return MACHINES.get(self._header()[1], "another")

    @property
    def is_position_independent(self) -> bool:
        """Whether it can be loaded anywhere."""
        return self._header()[0] == 3

    def segments(self) -> List[Segment]:
        _, _, _, _, start, _, _, _, size, count, _, _, _ = self._header()
        rows = [struct.unpack_from("<IIQQQQQQ", self.content, start + at * size) for at in range(count)]
        return [Segment(row[0], row[1], row[2], row[5]) for row in rows]

    def of_kind(self, kind: int) -> List[Segment]:
        return [it for it in self.segments() if it.kind == kind]

    def dynamic(self) -> Dict[int, int]:
        """The entries of the dynamic section; of those that are there more than once, one."""
        held: Dict[int, int] = {}
        for segment in self.of_kind(DYNAMIC):
            for at in range(segment.offset, segment.offset + segment.size, 16):
                key, value = struct.unpack_from("<QQ", self.content, at)
                held[key] = value
        return held

    def notes(self) -> Iterator[Tuple[str, int, bytes]]:
        """Each note: whose it is, its type, and what it says."""
        for segment in self.of_kind(NOTE):
            at, end = segment.offset, segment.offset + segment.size
            while at + 12 <= end:
                name_size, size, kind = struct.unpack_from("<III", self.content, at)
                name = self.content[at + 12:at + 12 + name_size].rstrip(b"\0").decode("ascii", "replace")
                start = at + 12 + -(-name_size // 4) * 4
                yield name, kind, self.content[start:start + size]
                at = start + -(-size // 4) * 4

    def section_types(self) -> List[int]:
        """The types of its sections."""
        _, _, _, _, _, start, _, _, _, _, size, count, _ = self._header()
        return [struct.unpack_from("<I", self.content, start + at * size + 4)[0] for at in range(count)]
