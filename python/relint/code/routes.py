"""The patterns that web frameworks make of routes whose variables have patterns of their own."""
from __future__ import annotations

import re
from typing import Dict, List, NamedTuple, Optional

from .texts import NotKnown

LONGEST = 2000
# The parts of a route that are only escaped. Others may be quoted first, or mean something.
PLAIN = re.compile(r"[A-Za-z0-9_/.~-]*")


class Form(NamedTuple):
    """How routes are written: a variable's name, filter and pattern; the filters; and what stands around the whole."""

    variable: str
    filters: Dict[Optional[str], str]
    whole: str


# /{name}/{name:pattern}
IN_BRACES = r"\{([_a-zA-Z][_a-zA-Z0-9]*)()(?::((?:[^{}\n]|\{[^{}\n]*\})+))?\}"
FORMS: Dict[str, Form] = {
    "aiohttp": Form(IN_BRACES, {"": "[^{}/]+"}, "{}"),
    "pyramid": Form(IN_BRACES, {"": "[^/]+"}, "{}$"),
    # /<name>/<name:int>/<name:re:pattern>
    "bottle": Form(r"<([a-zA-Z_][a-zA-Z_0-9]*)(?::([a-zA-Z_]*)(?::((?:\\.|[^\\>])+)?)?)?>", {
        None: "[^/]+", "": "[^/]+", "re": "[^/]+", "int": r"-?\d+", "float": r"-?[\d.]+", "path": ".+?"}, "^({})$"),
}


def routed(form: str, route: object) -> str:
    """Returns the pattern that is made of a route in one of the FORMS; raises NotKnown if no variable in it has its own."""
    if not isinstance(route, str) or not route.startswith("/") or len(route) > LONGEST:
        raise NotKnown("not a text")
    pieces = re.split(FORMS[form].variable, route)
    found: List[str] = []
    for at in range(0, len(pieces), 4):
        if PLAIN.fullmatch(pieces[at]) is None:
            raise NotKnown("route of another form")
        found.append(re.escape(pieces[at]))
        if at + 1 < len(pieces):
            name, kind, own = pieces[at + 1:at + 4]
            if kind not in FORMS[form].filters or own and kind not in ("", "re"):
                raise NotKnown("route of another form")
            found.append(f"(?P<{name}>{own or FORMS[form].filters[kind]})")
    if not any(pieces[3::4]):
        raise NotKnown("not a text")
    return FORMS[form].whole.replace("{}", "".join(found))
