"""A small project with good, slow and refused patterns."""
import re
from re import fullmatch as whole

NUMBER = r"\d+"  # not a call, so it isn't judged
ROW = re.compile(r"(\w+\s?)*$")
DATE = re.compile(r"(\d{4})-(\d{2})-(\d{2})")


def trimmed(text: str) -> str:
    return re.sub(r"\s+$", "", text)


def is_name(text: str) -> bool:
    return whole(r"[A-Za-z_]\w*", text) is not None


def is_path(text: str) -> bool:
    return whole(r"(?:/[\w.-]+)+", text) is not None


def fields(line: str) -> object:
    return re.match(r"(.*),(.*),(.*)", line)


def doubled(text: str) -> object:
    return re.search(r"(\w)\1", text)


def named(name: str, text: str) -> object:
    return re.search(r"\b" + name, text)


def quoted(text: str, flags: int) -> object:
    return re.findall(r'"[^"]*"', text, flags)
