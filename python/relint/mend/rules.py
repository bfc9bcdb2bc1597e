"""Rules of thumb that propose patterns in place of a pattern.

No rule is trusted: a proposal counts only after relint-ask has judged it. A rule takes a node and the alphabet of its pattern,
and yields nodes that might stand in its place. Its docstring says to what it applies and, after the colon, what it proposes;
its example is tried by a test. A rule of WHOLE takes the tree of a whole pattern.

A *loop* is a repeat without a bound, a *run* is a repeated set, and *blanks* are any run here.
"""
from __future__ import annotations

from dataclasses import dataclass
from itertools import accumulate
from typing import Callable, Iterator, List, NamedTuple, Optional, Sequence, Tuple

from .nodes import (
    CHARS, CHOICE, EMPTY, GROUP, GUARD, NO_BOUND, REPEAT, ROW, Alphabet, Node, again, chars, choice, group, guard, look, made,
    optional, plus, positions, put, repeat, row, star, union, with_child,
)
from .nodes import at as node_at

Path = Tuple[int, ...]
MOST_SIGNS = 10


@dataclass(frozen=True)
class Rule:
    """A rule. Proposals of a lower `cost` are tried first; `example` is a pattern and one that the rule proposes for it."""

    name: str
    cost: float
    rewrite: Callable[[Node, Alphabet], Iterator[Node]]
    example: Tuple[str, str]


class Run(NamedTuple):
    """A set that is repeated from `least` to `most` times."""

    least: int
    most: int
    mask: int
    greedy: bool

    @property
    def endless(self) -> bool:
        """Whether it has no bound."""
        return self.most == NO_BOUND


# Helpers

def core(node: Node) -> Node:
    """Returns the node without the capturing groups directly around it."""
    while node.kind == GROUP:
        node = node.body
    return node


def recored(node: Node, new: Node) -> Node:
    """Returns the node with its core replaced; the groups around it are kept."""
    return group(node, recored(node.body, new)) if node.kind == GROUP else new


def run_of(node: Optional[Node]) -> Optional[Run]:
    """Returns the run that a node is, perhaps in groups; a set alone is a run of exactly one."""
    if node is None:
        return None
    found = core(node)
    if found.kind == CHARS:
        return Run(1, 1, found.mask, True)
    return Run(found.least, found.most, found.body.mask, found.greedy) if found.is_run else None


def with_run(node: Node, least: int, most: int, mask: int) -> Node:
    """Returns a node that is a run with other bounds and another mask; the groups around it are kept."""
    found = core(node)
    leaf = found.body if found.kind == REPEAT else found
    return recored(node, repeat(least, most, found.greedy, leaf if leaf.mask == mask else chars(mask)))


def stripped(node: Node) -> Node:
    """Returns the node without its groups; what is in them stays."""
    if not node.facts.groups:
        return node
    return stripped(node.body) if node.kind == GROUP else made(node, [stripped(it) for it in node.items])


def dead_groups(node: Node) -> List[Node]:
    """Returns for each group of a part that is left out an optional group that can't match, so that the numbers stay."""
    return [optional(Node(GROUP, (chars(0),), number=number, name=name)) for number, name in node.facts.groups]


def items_of(node: Node) -> Tuple[Node, ...]:
    """Returns the parts of a row; another node is its own only part."""
    return node.items if node.kind == ROW else (node,)


def edge(node: Node, at: int) -> Optional[Node]:
    """Returns the run with which a node begins (`at` 0) or ends (-1), perhaps inside groups; a set alone doesn't count."""
    while node.kind == GROUP or node.kind == ROW and node.items:
        node = node.items[at]
    return node if node.is_run else None


def with_edge(node: Node, at: int, new: Node) -> Node:
    """Returns the node with the run that `edge` gives replaced."""
    if node.kind == GROUP:
        return group(node, with_edge(node.body, at, new))
    if node.kind == ROW and node.items:
        return with_child(node, at % len(node.items), with_edge(node.items[at], at, new))
    return new


def pairs(node: Node) -> Iterator[Tuple[int, Node, Node]]:
    """Yields each two neighbours of a row, after the number of the first one."""
    if node.kind == ROW:
        yield from ((at, node.items[at], node.items[at + 1]) for at in range(len(node.items) - 1))


def put_parts(node: Node, start: int, end: int, *new: Node) -> Node:
    """Returns the node with its parts from number `start` to before number `end` replaced."""
    items = items_of(node)
    return row([*items[:start], *new, *items[end:]])


def last_and_first(node: Node) -> Iterator[Tuple[int, Node, Node, Node, Node]]:
    """Yields each two neighbours that end and begin with runs: the number of the first, both, and both runs."""
    for at, left, right in pairs(node):
        last, first = edge(left, -1), edge(right, 0)
        if last is not None and first is not None:
            yield at, left, right, last, first


# Loops

def as_often(loop: Node, whole: Node) -> Node:
    """Returns what stands for at least one round of a loop, or that optional if the loop may have none."""
    return optional(whole, loop.greedy) if loop.least == 0 else whole


def close(node: Node, alphabet: Alphabet) -> Iterator[Node]:
    """A loop whose body isn't just a set: one round, or just as many as it needs."""
    if node.endless and not node.is_run:
        yield again(node, node.body, least=min(node.least, 1), most=1)
        if node.least > 1:
            yield again(node, node.body, most=node.least)


def nest(node: Node, alphabet: Alphabet) -> Iterator[Node]:
    """A loop directly over a repeat: one loop over what is inside both, the groups around or inside it."""
    inner = core(node.body) if node.endless else node
    if not node.endless or inner.kind != REPEAT:
        return
    least = node.least * inner.least
    yield recored(node.body, again(node, inner.body, least=least, greedy=node.greedy and inner.greedy))
    yield again(node, recored(node.body, inner.body), least=least)
    if node.least == 0:
        yield again(node, recored(node.body, again(inner, inner.body, least=1)))


def nest_choice(node: Node, alphabet: Alphabet) -> Iterator[Node]:
    """A loop over branches of which some are loops: a loop over the branches with their bodies in place of the loops."""
    inner = core(node.body) if node.endless else node
    if not node.endless or inner.kind != CHOICE:
        return
    pieces = [recored(it, core(it).body) if core(it).endless else it for it in inner.items]
    if tuple(pieces) != inner.items:
        yield again(node, recored(node.body, choice(pieces)), least=0 if inner.facts.nullable else node.least)


def shuffle(node: Node, alphabet: Alphabet) -> Iterator[Node]:
    """A loop over parts that may all be missing: a loop over a choice of the parts, without their own quantifiers."""
    inner = core(node.body) if node.endless else node
    if node.endless and inner.kind == ROW and not inner.facts.guarded and inner.facts.nullable and inner.items:
        pieces = [recored(it, core(it).body) if core(it).kind == REPEAT else it for it in inner.items]
        yield star(recored(node.body, choice(pieces)), node.greedy)


def hoist(node: Node, alphabet: Alphabet) -> Iterator[Node]:
    """A loop whose body begins or ends with a part that may be empty: that part only once, beside the loop."""
    parts = items_of(core(node.body)) if node.endless else ()
    if len(parts) < 2:
        return
    for end, rest, is_front in ((parts[0], parts[1:], True), (parts[-1], parts[:-1], False)):
        if not end.facts.nullable or end.facts.groups:
            continue
        for least in (node.least, max(node.least, 1)):
            loop = again(node, recored(node.body, row(rest)), least=least)
            whole = row([end, loop] if is_front else [loop, end])
            yield whole if least == node.least else optional(whole, node.greedy)


def unroll(node: Node, alphabet: Alphabet) -> Iterator[Node]:
    """A loop over an item and an optional separator: items with the separator between them, and optional at the end."""
    parts = items_of(node.body) if node.endless and node.least < 2 and not node.facts.groups else ()
    if len(parts) > 1 and parts[-1].kind == REPEAT and (parts[-1].least, parts[-1].most) == (0, 1):
        head, middle = row(parts[:-1]), parts[-1].body
        yield as_often(node, row([head, star(row([middle, head])), optional(middle)]))


def one_piece(node: Node, alphabet: Alphabet) -> Iterator[Node]:
    """A loop with a loop as one part of its body: at most one round of the inner one in each round of the outer one."""
    inner = core(node.body) if node.endless else node
    for at, it in enumerate(inner.items if node.endless and inner.kind == ROW else ()):
        found = core(it)
        if found.endless:
            single = recored(it, again(found, found.body, least=min(found.least, 1), most=1))
            yield again(node, recored(node.body, with_child(inner, at, single)))


def fill(node: Node, alphabet: Alphabet) -> Iterator[Node]:
    """A run that may be empty: the same run with at least one character."""
    if node.is_run and node.least == 0:
        yield again(node, node.body, least=1)


def rotate(node: Node, alphabet: Alphabet) -> Iterator[Node]:
    """A loop whose body begins and ends with runs of the same set: two runs between rounds become one.

    With groups in it, that is done for all rounds but the last one, or for all with groups that never match.
    """
    parts = [stripped(it) for it in items_of(core(node.body))] if node.endless and node.least < 2 else []
    first, last = (run_of(parts[0]), run_of(parts[-1])) if len(parts) > 2 else (None, None)
    if first is None or last is None or first.mask != last.mask:
        return
    most = NO_BOUND if NO_BOUND in (first.most, last.most) else first.most + last.most
    seam = repeat(first.least + last.least, most, True, chars(first.mask))
    whole = row([*parts[:-1], star(row([seam, *parts[1:-1]]), node.greedy), parts[-1]])
    if node.facts.groups:
        yield as_often(node, row([optional(whole), node.body]))
    yield row([as_often(node, whole), *dead_groups(node)])


def last_round(node: Node, alphabet: Alphabet) -> Iterator[Node]:
    """A loop with groups in it: rounds without groups, then the last round with them.

    A part that may be missing in the last round may be needed in the others, so that is proposed too.
    """
    if not node.endless or node.least > 1 or not node.facts.groups:
        return
    plain = stripped(node.body)
    parts = items_of(plain)
    bodies = [plain] + [put_parts(plain, at, at + 1, again(it, it.body, least=1)) for at, it in enumerate(parts)
                        if len(parts) > 1 and it.kind == REPEAT and it.least == 0]
    yield from (as_often(node, row([star(it, node.greedy), node.body])) for it in bodies)


def seam(node: Node, alphabet: Alphabet) -> Iterator[Node]:
    """A loop whose body ends with a run and a character that the run may take: in all rounds but the last the run can't."""
    body = stripped(node.body) if node.endless and node.least < 2 else EMPTY
    parts = items_of(body)
    run, sign = (run_of(parts[-2]), run_of(parts[-1])) if len(parts) > 2 else (None, None)
    if run is None or sign is None or not run.endless or run.least > 1:
        return
    if not run.mask & sign.mask or not run.mask & ~sign.mask:
        return
    own = with_run(parts[-2], run.least, run.most, run.mask & ~sign.mask)
    yield as_often(node, row([star(row([*parts[:-2], own, parts[-1]]), node.greedy), node.body]))


def fallback(node: Node, alphabet: Alphabet) -> Iterator[Node]:
    r"""A greedy loop over escapes and other characters, as `(?:\\.|[^"])*`: the escaping character alone only at the end.

    Or it may be alone anywhere, and takes with it only an escaped character that isn't among the others.
    """
    inner = core(node.body) if node.endless and node.greedy else node
    if inner is node or inner.kind != CHOICE:
        return
    for sign, taken, others, rest in _escapes(inner):
        alone = others & ~sign
        second = taken | alone
        tail = optional(chars(sign)) if taken & sign else star(chars(sign))
        head = chars(sign) if taken & sign else plus(chars(sign))
        if alone:
            yield row([star(recored(node.body, choice([row([head, chars(second)]), *rest, chars(alone)]))), tail])
        odd = taken & ~others
        if odd and alone:
            loose = choice([row([chars(sign), optional(chars(odd))]), *rest, chars(alone)])
            yield again(node, recored(node.body, loose))


def _escapes(node: Node) -> Iterator[Tuple[int, int, int, List[Node]]]:
    """Yields for each escaping character of a choice its mask, what it escapes, the other characters, and other branches."""
    rows = [it for it in node.items if it.kind == ROW and it.items]
    others = [it for it in node.items if it.kind == CHARS]
    for sign in sorted({it.items[0].mask for it in rows if it.items[0].kind == CHARS}) if len(others) == 1 else ():
        twos = [it for it in rows if len(it.items) == 2 and it.items[0] == chars(sign) and it.items[1].kind == CHARS]
        taken = union(it.items[1].mask for it in twos)
        if taken and others[0].mask & sign == sign:
            yield sign, taken, others[0].mask, [it for it in node.items if it is not others[0] and it not in twos]


def glued(node: Node, alphabet: Alphabet) -> Iterator[Node]:
    """A loop whose rounds may follow each other without blanks, and begin and end with runs that share characters.

    A later round begins with blanks, or else with as few characters as it needs: the run before it takes the others.
    """
    if not node.endless or node.least > 1 or node.facts.guarded:
        return
    parts = [stripped(it) for it in items_of(core(node.body))]
    for blanks, rest, is_front in ((parts[0], parts[1:], True), (parts[-1], parts[:-1], False), (None, parts, True)):
        run, first, last = run_of(blanks), run_of(rest[0] if rest else None), run_of(rest[-1] if rest else None)
        if first is None or last is None or not last.endless or first.mask & ~last.mask or not first.least:
            continue
        if blanks is not None and (run is None or not blanks.facts.nullable) or run is None and len(rest) < 2:
            continue
        head = short = repeat(first.least, first.least, True, chars(first.mask))
        if run is not None:
            wide = row([repeat(max(1, run.least), run.most, run.greedy, chars(run.mask)), rest[0]])
            head = choice([wide, short]) if len(rest) > 1 else wide
        elif not first.endless:
            continue
        ends = [] if blanks is None else [blanks]
        later = star(row([head, *rest[1:]]), node.greedy)
        whole = row([*ends, *rest, later] if is_front else [*rest, later, *ends])
        yield as_often(node, row([optional(whole, node.greedy), node.body]) if node.facts.groups else whole)


# Choices

def disjoint(node: Node, alphabet: Alphabet) -> Iterator[Node]:
    """A run among branches: the run without the characters with which another branch begins."""
    for at, it in enumerate(node.items if node.kind == CHOICE else ()):
        run = run_of(it)
        for other in node.items if run is not None else ():
            first = other.facts.first
            if run is not None and other is not it and first & run.mask and run.mask & ~first:
                yield with_child(node, at, with_run(it, run.least, run.most, run.mask & ~first))


def drop_branch(node: Node, alphabet: Alphabet) -> Iterator[Node]:
    """A loop over branches: the loop without one of them."""
    inner = core(node.body) if node.endless else node
    for at, it in enumerate(inner.items if node.endless and inner.kind == CHOICE else ()):
        if not it.facts.groups:
            yield again(node, recored(node.body, choice([*inner.items[:at], *inner.items[at + 1:]])))


def factor(node: Node, alphabet: Alphabet) -> Iterator[Node]:
    """Two branches with the same beginning or end: that part once, and a choice of what is left."""
    branches = node.items if node.kind == CHOICE else ()
    for one in range(len(branches)):
        for other in range(one + 1, len(branches)):
            left, right = items_of(branches[one]), items_of(branches[other])
            for turn in (1, -1):
                both = list(zip(left[::turn], right[::turn]))
                count = next((at for at, (a, b) in enumerate(both) if a != b or a.facts.groups), len(both))
                if not count:
                    continue
                if turn == 1:
                    new = row([*left[:count], _either(row(left[count:]), row(right[count:]))])
                else:
                    new = row([_either(row(left[:-count]), row(right[:-count])), *left[-count:]])
                yield choice([*branches[:one], new, *branches[one + 1:other], *branches[other + 1:]])


def _either(one: Node, other: Node) -> Node:
    """A choice of two rows of parts, of which one may be empty."""
    if one == EMPTY:
        return optional(other, False)
    return optional(one, True) if other == EMPTY else choice([one, other])


# Parts one after another

def absorb(node: Node, alphabet: Alphabet) -> Iterator[Node]:
    """Two neighbouring endless runs, one with all characters of the other: the other is as short as it may be, or left out."""
    for at, left, right in pairs(node):
        one, other = run_of(left), run_of(right)
        if one is None or other is None or not one.endless or not other.endless:
            continue
        for place, part, own, wide in ((at + 1, right, other, one), (at, left, one, other)):
            if own.mask & ~wide.mask == 0:
                new = [with_run(part, own.least, own.least, own.mask)] if own.least else dead_groups(part)
                yield put_parts(node, place, place + 1, *new)


def cede(node: Node, alphabet: Alphabet) -> Iterator[Node]:
    """An endless run after a greedy one that shares characters: it begins with one of its own, or is as short as it may be."""
    for at, _, right, last, first in last_and_first(node):
        taken, mask = last.body.mask, first.body.mask
        if not last.endless or not last.greedy or not first.endless or first.least > 1 or not mask & taken:
            continue
        own, common = mask & ~taken, mask & taken
        begun = row([chars(own), star(first.body, first.greedy)]) if own else None
        if first.least == 0:
            new = optional(begun, first.greedy) if begun else EMPTY
        else:
            new = choice([begun, chars(common)]) if begun else chars(common)
        yield put_parts(node, at + 1, at + 2, with_edge(right, 0, new))


def cede_line(node: Node, alphabet: Alphabet) -> Iterator[Node]:
    """A run, the start of a line, a run, both with newlines: the second without newlines, or with one only at its end."""
    newline = alphabet.newline
    for at in range(len(node.items) - 2 if node.kind == ROW else 0):
        last, mark, first = edge(node.items[at], -1), node.items[at + 1], edge(node.items[at + 2], 0)
        if last is None or first is None or mark.name not in ("^", "(?m:^)") or not first.endless or first.least > 1:
            continue
        own = first.body.mask & ~newline
        if own and own != first.body.mask and last.body.mask & newline:
            rest = star(chars(own), first.greedy)
            new = row([rest, first.body]) if first.least else rest
            yield put_parts(node, at + 2, at + 3, with_edge(node.items[at + 2], 0, new))


def end_own(node: Node, alphabet: Alphabet) -> Iterator[Node]:
    """An endless run before one that shares characters: it ends with a character of its own, or is as short as it may be."""
    for at, left, _, last, first in last_and_first(node):
        if not last.endless or not first.endless or last.least > 1 or not last.body.mask & first.body.mask:
            continue
        for new in _ended(last, last.body.mask & ~first.body.mask):
            yield put_parts(node, at, at + 1, with_edge(left, -1, new))


def _ended(run: Node, own: int) -> Iterator[Node]:
    """Yields forms of an endless run that end with a character of the mask `own`; for a lazy run, greedy ones too."""
    for eager in (run.greedy, True)[:1 if run.greedy or not own else 2]:
        ended = optional(row([star(run.body, eager), chars(own)]), eager) if own else EMPTY
        yield row([run.body, ended]) if run.least else ended
        if own and run.least:
            yield row([star(run.body, eager), chars(own)])


def end_own_far(node: Node, alphabet: Alphabet) -> Iterator[Node]:
    """An endless run, parts that may be empty, and one that shares characters: the first ends with one of its own."""
    for at in range(len(node.items) - 2 if node.kind == ROW else 0):
        last, between = edge(node.items[at], -1), 0
        if last is None or not last.endless or last.least > 1:
            continue
        for it in _flat(node.items[at + 1:]):
            first = edge(it, 0)
            if between and first is not None and first.endless and first.body.mask & last.body.mask:
                for taken in (first.body.mask, first.body.mask | between):
                    own = last.body.mask & ~taken
                    if own:
                        yield put_parts(node, at, at + 1, with_edge(node.items[at], -1, next(_ended(last, own))))
            if not it.facts.nullable:
                break
            between |= it.facts.mask


def _flat(items: Sequence[Node]) -> Iterator[Node]:
    """Yields the parts, and in the place of a group or a row its own parts."""
    for it in items:
        if core(it).kind == ROW:
            yield from _flat(core(it).items)
        else:
            yield it


def exclude(node: Node, alphabet: Alphabet) -> Iterator[Node]:
    """Two neighbouring runs that share characters: one of them, which is endless, without those of the other."""
    for at, left, right in pairs(node):
        one, other = run_of(left), run_of(right)
        if one is None or other is None or not one.mask & other.mask:
            continue
        for place, part, own, its in ((at, left, one, other), (at + 1, right, other, one)):
            if own.endless and own.mask & ~its.mask:
                yield put_parts(node, place, place + 1, with_run(part, own.least, own.most, own.mask & ~its.mask))


def after_last(node: Node, alphabet: Alphabet) -> Iterator[Node]:
    """An endless greedy run, one character within it, an endless run: the second without it, or with it at its end."""
    for at in range(len(node.items) - 2 if node.kind == ROW else 0):
        before, sign, run = edge(node.items[at], -1), run_of(node.items[at + 1]), edge(node.items[at + 2], 0)
        if before is None or run is None or sign is None or not before.greedy or not before.endless or not run.endless:
            continue
        common = sign.mask & run.body.mask
        own = run.body.mask & ~common
        if (sign.least, sign.most) != (1, 1) or not common or not own or sign.mask & ~before.body.mask or run.least > 1:
            continue
        for new in (again(run, chars(own)), _at_end(run, own, common)):
            yield put_parts(node, at + 2, at + 3, with_edge(node.items[at + 2], 0, new))


def _at_end(run: Node, own: int, common: int) -> Node:
    """A run of the mask `own` with perhaps one of `common` at its end, or just that one."""
    return choice([row([plus(chars(own), run.greedy), optional(chars(common))]), chars(common)])


def option_pair(node: Node, alphabet: Alphabet) -> Iterator[Node]:
    """Blanks, an optional part, blanks: the blanks on one side inside the part."""
    for at in range(len(node.items) - 2 if node.kind == ROW else 0):
        left, part, right = node.items[at:at + 3]
        one, other = run_of(left), run_of(right)
        if one is None or other is None or part.kind != REPEAT or part.least:
            continue
        filled = again(part, part.body, least=1)
        if not right.facts.groups and other.least < 2 and other.endless and other.mask & ~one.mask == 0:
            yield put_parts(node, at + 1, at + 3, _with_or_alone(row([filled, right]), other))
        if not left.facts.groups and one.least < 2 and one.endless and one.mask & ~other.mask == 0:
            yield put_parts(node, at, at + 2, _with_or_alone(row([left, filled]), one))


def _with_or_alone(whole: Node, run: Run) -> Node:
    """A part with a run beside it, or as few characters of the run as it needs."""
    return choice([whole, chars(run.mask)]) if run.least else optional(whole)


def with_blanks(node: Node, alphabet: Alphabet) -> Iterator[Node]:
    """Blanks that may be empty, an optional part or group: the blanks inside the part, or all of it optional."""
    for at, left, right in pairs(node):
        run = run_of(left)
        if run is None or run.least or left.facts.groups:
            continue
        inner = core(right)
        for least in (0, 1) if right.kind == GROUP and inner.is_run and inner.least == 0 else ():
            part = recored(right, again(inner, inner.body, least=least))
            yield put_parts(node, at, at + 2, optional(row([with_run(left, 1, run.most, run.mask), part])))
        if right.kind != REPEAT or right.least or right.is_run:
            continue
        yield put_parts(node, at, at + 2, repeat(0, right.most, True, row([left, right.body])))
        yield put_parts(node, at, at + 2, optional(row([left, again(right, right.body, least=1)])))
        yield put_parts(node, at, at + 2, optional(row([with_run(left, 1, run.most, run.mask), right])))


def drop_optional(node: Node, alphabet: Alphabet) -> Iterator[Node]:
    """An endless run beside an optional run that it may take itself: the endless run alone."""
    for at, left, right in pairs(node):
        for run, part, gone in ((edge(left, -1), right, at + 1), (edge(right, 0), left, at)):
            found = run_of(part)
            if run is None or found is None or not run.endless or found.least or part.facts.groups:
                continue
            if found.mask & ~run.body.mask == 0:
                yield put_parts(node, gone, gone + 1)


def absorb_branch(node: Node, alphabet: Alphabet) -> Iterator[Node]:
    """A run, then a loop over branches of which some repeat what the run takes: these branches only behind the others."""
    for at, left, right in pairs(node):
        run = run_of(left)
        if run is None or not run.endless or not right.endless or right.least > 1 or right.facts.groups:
            continue
        parts = items_of(core(right.body))
        heads, rest = (core(parts[0]), parts[1:]) if parts else (EMPTY, ())
        branches = heads.items if heads.kind == CHOICE else (heads,)
        inner = [it for it in branches if row([it, *rest]).facts.mask & ~run.mask == 0]
        outer = [it for it in branches if it not in inner]
        if inner and outer:
            behind = star(row([choice(inner), *rest]), right.greedy)
            yield put_parts(node, at + 1, at + 2, star(row([choice(outer), *rest, behind]), right.greedy))


def temper(node: Node, alphabet: Alphabet) -> Iterator[Node]:
    """An endless run before a word of two or three characters: the run without the word."""
    for at, left, _ in pairs(node):
        last, word = edge(left, -1), _ahead(node, at)
        if last is not None and last.endless and last.least < 2 and len(word) > 1:
            for new in without(last.body.mask, word):
                yield put_parts(node, at, at + 1, with_edge(left, -1, row([*([last.body] if last.least else []), new])))


def without(mask: int, word: Sequence[int]) -> Iterator[Node]:
    """Yields forms of the texts over a mask in which a word doesn't begin: `xx`, `xxx`, `xy` or `xxy`."""
    one = word[0]
    same = next((at for at, it in enumerate(word) if it != one), len(word))
    others, sign = chars(mask & ~one), chars(one)
    if one & ~mask or not others.mask:
        return
    if same == len(word):
        if same < 4:
            yield star(row([repeat(0, same - 1, True, sign), others]))
        if same == 2:
            yield row([star(others), star(row([sign, plus(others)]))])
        return
    tail = chars(mask & ~one & ~word[same])
    if word[same] & one or not tail.mask or same > 2:
        return
    if same == 1:
        yield row([star(choice([others, row([plus(sign), tail])])), star(sign)])
        yield row([star(others), star(row([plus(sign), tail, star(others)])), star(sign)])
    else:
        yield row([star(choice([row([optional(sign), others]), row([repeat(2, NO_BOUND, True, sign), tail])])), star(sign)])


def word_free(mask: int, word: Sequence[int]) -> Optional[Node]:
    """Returns the texts over a mask in which no match of a word begins, written out; None if its first character comes again.

    That may be its last one too. This form is too long to be read, but it has one way through each text.
    """
    first, is_closed = word[0], word[-1] == word[0]
    inner = word[1:-1] if is_closed else word[1:]
    exits = [mask & ~first & ~it for it in word[1:]]
    if len(word) < 2 or first & ~mask or any(it & first for it in inner) or not all(exits):
        return None
    partial, out = EMPTY, chars(exits[-1])
    for it in reversed(inner[:-1]):
        partial = optional(row([chars(it), partial]))
    for it, its in zip(reversed(word[1:-1]), reversed(exits[:-1])):
        out = choice([chars(its), row([chars(it), out])])
    begun = row([chars(first), star(row([partial, chars(first)]))])
    return row([star(choice([chars(mask & ~first), row([begun, out])])), optional(row([begun, partial]))])


def fixed(node: Node) -> List[int]:
    """Returns the masks of the single characters with which a node begins, perhaps inside groups, as far as they go."""
    if node.kind == CHARS:
        return [node.mask]
    if node.kind == GROUP:
        return fixed(node.body)
    if node.is_run and node.least == node.most:
        return [node.body.mask] * min(node.least, 4)
    found: List[int] = []
    for it in node.items if node.kind == ROW else ():
        found += fixed(it)
        if core(it).kind not in (CHARS, ROW):
            break
    return found


def _ahead(node: Node, at: int) -> List[int]:
    """The masks of the single characters that come right after the part number `at` of a row."""
    found: List[int] = []
    for it in node.items[at + 1:]:
        found += fixed(it)
        if core(it).kind != CHARS:
            break
    return found


# Rules for a whole tree

def endless_runs(tree: Node) -> Iterator[Tuple[Path, Node]]:
    """Yields each endless run after the path to it, from left to right."""
    return ((path, it) for path, it in positions(tree) if it.is_run and it.endless)


def signs(tree: Node, path: Path = ()) -> Iterator[Tuple[Path, int]]:
    """Yields the mask of each set that is no part of a loop over more, after the path to it."""
    if tree.kind == CHARS:
        yield path, tree.mask
    elif tree.is_run:
        yield from [(path, tree.body.mask)] if tree.least else []
    else:
        for at, it in enumerate(tree.items):
            yield from signs(it, (*path, at))


def exclude_far(tree: Node, alphabet: Alphabet) -> Iterator[Node]:
    """An endless run, and a character elsewhere that it may take: the run without it, or with it only at an end."""
    # (a letter or digit is a part of a word, and parts no fields)
    parting = (it for _, it in signs(tree) if not alphabet.is_one(it) or not alphabet.of(it)[:1].isalnum())
    every = list(dict.fromkeys(parting))[:MOST_SIGNS]
    for path, run in endless_runs(tree):
        for sign in every:
            common, own = run.body.mask & sign, run.body.mask & ~sign
            if not common or not own or run.least > 1:
                continue
            yield put(tree, path, again(run, chars(own)))
            if run.least:
                yield put(tree, path, row([run.body, star(chars(own), run.greedy)]))
                yield put(tree, path, _at_end(run, own, common))
            else:
                yield put(tree, path, row([star(chars(own), run.greedy), optional(chars(common), run.greedy)]))


def stop_all(tree: Node, alphabet: Alphabet) -> Iterator[Node]:
    """Several endless runs, each before a single character that it may take: these runs without it, after their least ones.

    It proposes that for all of them, for all but the first or last one or two, and for the lazy or the greedy ones.
    """
    every: List[Tuple[Path, Node, bool]] = []
    for path, run in endless_runs(tree):
        sign = _behind(tree, path)
        if run.body.mask & sign and run.body.mask & ~sign and run.least < 3:
            rest = star(chars(run.body.mask & ~sign), run.greedy)
            every.append((path, row([repeat(run.least, run.least, True, run.body), rest]), run.greedy))
    lazy, eager = ([it for it in every if it[2] == is_greedy] for is_greedy in (False, True))
    for some in (every, every[:-1], every[1:], every[:-2], every[2:], every[1:-1], lazy, eager):
        new = tree
        # (from the end, since a replaced part may be several parts)
        for path, part, _ in reversed(some):
            new = put(new, path, part)
        if len(some) > 1:
            yield new


def _behind(tree: Node, path: Path) -> int:
    """The mask of the single character that has to come right after the node at the end of a path; 0 if there is none."""
    return (fixed(row(rest_of(tree, path))) or [0])[0]


def rest_of(tree: Node, path: Path) -> List[Node]:
    """Returns the parts that come after the node at the end of a path, as far as it stands in rows and groups alone."""
    found: List[Node] = []
    nodes = list(accumulate(path, lambda node, at: node.items[at], initial=tree))
    for node, at in zip(nodes[-2::-1], reversed(path)):
        if node.kind == ROW:
            found += node.items[at + 1:]
        elif node.kind != GROUP:
            break
    return found


def trim(tree: Node, alphabet: Alphabet) -> Iterator[Node]:
    """A pattern that begins or ends with a repeat of which only the least is needed for a match: only that many."""
    for at in (0, len(tree.items) - 1) if tree.kind == ROW and tree.items else ():
        it = tree.items[at]
        if it.kind == REPEAT and it.least != it.most and not it.facts.groups:
            yield put_parts(tree, at, at + 1, again(it, it.body, most=it.least, greedy=True))


def stop_before(tree: Node, alphabet: Alphabet) -> Iterator[Node]:
    """An endless run before a word, or behind a word before which a greedy run stands: the run stops before the word.

    That is spelled out by looks of one character. Where a beginning of the word is enough, the run stops before that.
    """
    runs = list(endless_runs(tree))
    for at, (path, run) in enumerate(runs):
        word = word_of(rest_of(tree, path))
        for count in sorted({2, 3, len(word)} & set(range(2, len(word) + 1))):
            for its_path, its in runs[at:at + 2] if run.greedy else [(path, run)]:
                free = spelled(its.body.mask, word[:count]) if its.least < 2 else None
                if free is not None:
                    yield put(tree, its_path, again(its, free))
                    if its.least:
                        yield put(tree, its_path, row([its.body, star(free, its.greedy)]))


def word_of(items: Sequence[Node]) -> List[int]:
    """Returns the masks of the characters that come first in a row of parts, without what may be missing in front of them.

    Of a run that has to be there they have one.
    """
    found: List[int] = []
    for it in _flat(items):
        run = run_of(it)
        if run is None or not run.least:
            if found or not it.facts.nullable:
                break
        else:
            found += [run.mask] * min(run.least, 4)
    return found


def spelled(mask: int, word: Sequence[int]) -> Optional[Node]:
    """Returns a character of a mask that begins no word, or as much of one as is none; None if its first one comes again.

    The word is given by the mask of each of its characters.
    """
    first = word[0]
    if first & ~mask or not mask & ~first or any(it & first for it in word[1:-1]):
        return None
    branches = [chars(mask & ~first)]
    for at in range(1, len(word)):
        if word[at - 1] & ~mask:
            break
        branches.append(row([*map(chars, word[:at]), look(False, True, word[at])]))
    return choice(branches)


def stop_run(tree: Node, alphabet: Alphabet) -> Iterator[Node]:
    """An endless run: a look ends it where it can't go on, and if it is the first part, one begins it only where it can begin.

    It proposes that for one run, for all of them, and for the first one's beginning alone.
    """
    runs, first = [it for it in endless_runs(tree) if not _is_ended(tree, it[0])], list(first_runs(tree))
    none: List[Tuple[Path, Node]] = []
    for begun in (first[:count] for count in range(len(first) + 1)):
        for ended in [none, *([it] for it in runs), *([runs] if len(runs) > 1 else [])]:
            new, begins, ends = tree, {path for path, _ in begun}, {path for path, _ in ended}
            # (from right to left, since a new item moves those behind it)
            for path, node in sorted({**dict(begun), **dict(ended)}.items(), reverse=True):
                front = [look(True, True, node.body.mask)] if path in begins else []
                new = put(new, path, row([*front, node, *([look(False, True, node.body.mask)] if path in ends else [])]))
            yield from [new] if begun or ended else []


def first_runs(tree: Node, path: Path = ()) -> Iterator[Tuple[Path, Node]]:
    """Yields the paths and endless runs with which a match can begin, as far as they stand in rows and groups."""
    if tree.is_run and tree.endless:
        yield path, tree
    for at, it in enumerate(tree.items if tree.kind in (ROW, GROUP) else ()):
        yield from first_runs(it, (*path, at))
        if not it.facts.nullable or it.kind == GUARD:
            break


def _is_ended(tree: Node, path: Path) -> bool:
    """Whether a guard stands right behind the node at the end of a path."""
    around = node_at(tree, path[:-1])
    return bool(path) and around.kind == ROW and any(it.kind == GUARD for it in around.items[path[-1] + 1:path[-1] + 2])


def line_anchor(tree: Node, alphabet: Alphabet) -> Iterator[Node]:
    """A pattern that begins with an endless run of all but newlines, of all or of word characters: a guard before it."""
    run = edge(tree, 0)
    guards = {alphabet.full & ~alphabet.newline: "(?m:^)", alphabet.full: "\\A", alphabet.categories["w"]: "\\b"}
    if run is not None and run.endless and run.body.mask in guards:
        yield row([guard(guards[run.body.mask]), tree])


RULES: Tuple[Rule, ...] = (
    Rule("close", 0, close, (r"(a+)*", r"(a+)?")),
    Rule("glued", 0.5, glued, (r"(?:\s*\w+=\w+)*", r"(?:\s*\w+=\w+(?:(?:\s+\w+|\w)=\w+)*)?")),
    Rule("seam", 0.6, seam, (r"(?:\s+\d\s*\n)+", r"(?:\s+\d[^\S\n]*\n)*\s+\d\s*\n")),
    Rule("drop-optional", 0.7, drop_optional, (r".*\r?\n", r".*\n")),
    Rule("cede", 0.8, cede, (r"\s+(.+)", r"\s+(\S.*|[^\S\n])")),
    Rule("cede-line", 0.8, cede_line, (r"\s*(?m:^)\s*", r"\s*(?m:^)[^\S\n]*")),
    Rule("end-own", 0.8, end_own, (r"(.*?)\s*x", r"((?:.*?\S)??)\s*x")),
    Rule("option-pair", 1, option_pair, (r"\s*(a)?\s*b", r"\s*(?:(a)\s*)?b")),
    Rule("nest", 1, nest, (r"(?:a*)*", r"a*")),
    Rule("absorb", 1, absorb, (r"=+[ =]*", r"=[ =]*")),
    Rule("absorb-branch", 1, absorb_branch, (r"[\w.]+(?:->\w+|\.\w+)*", r"[\w.]+(?:->\w+(?:\.\w+)*)*")),
    Rule("end-own-far", 1.4, end_own_far, (r"(.*?)-?\d*;", r"((?:.*?[^\d\n])??)-?\d*;")),
    Rule("nest-choice", 2, nest_choice, (r'(?:[^"]+|"")*', r'(?:[^"]|"")*')),
    Rule("shuffle", 2, shuffle, (r"(?:;?\d*)*", r"[\d;]*")),
    Rule("hoist", 2, hoist, (r"(?:\s*a\s*)*", r"\s*(?:a\s*)*")),
    Rule("unroll", 2, unroll, (r"(?:\w+,?)*", r"(?:\w+(?:,\w+)*,?)?")),
    Rule("one-piece", 2, one_piece, (r"(?:,?\d+)*", r"(?:,?\d)*")),
    Rule("disjoint", 2, disjoint, (r'(?:\\.|[^"])*', r'(?:\\.|[^"\\])*')),
    Rule("temper", 2.2, temper, (r"/\*.*?\*/", r"/\*(?:[^*\n]|\*+[^*/\n])*\**\*/")),
    Rule("factor", 2.5, factor, (r"a+b|a+c", r"a+[bc]")),
    Rule("fallback", 2.5, fallback, (r'(?:\\.|[^"])*', r'(?:\\[\s\S]|[^"\\])*\\?')),
    Rule("fill", 3, fill, (r"(?:a*)?", r"(?:a+)?")),
    Rule("rotate", 3, rotate, (r"(?:\w+-\w+)+", r"\w+-(?:\w{2,}-)*\w+")),
    Rule("last-round", 3.5, last_round, (r"(a|b)*", r"(?:(?:a|b)*(a|b))?")),
    Rule("drop-branch", 3.5, drop_branch, (r"(?:a|aa|b)*", r"[ab]*")),
    Rule("exclude", 4, exclude, (r".*\s+", r"\S*\s+")),
    Rule("after-last", 4, after_last, (r"(.*)/(.*)$", r"(.*)/([^/\n]*)$")),
    Rule("with-blanks", 5, with_blanks, (r"\s*(a)?", r"(?:\s*(a))?")),
)
WHOLE: Tuple[Rule, ...] = (
    Rule("trim", 0.3, trim, (r".*ab", r"ab")),
    Rule("line-anchor", 0.5, line_anchor, (r".*x", r"(?m:^).*x")),
    Rule("stop-all", 0.6, stop_all, (r"<.+?>.*?;", r"<.[^>\n]*?>[^;\n]*?;")),
    Rule("exclude-far", 4.2, exclude_far, (r"(.*);(.*)", r"([^;\n]*);(.*)")),
)
# The last resort, since what has a look isn't relint's to judge.
LOOKS: Tuple[Rule, ...] = (
    Rule("stop-before", 2, stop_before, (r"/\*.*?\*/", r"/\*(?:[^*\n]|\*(?!/))*?\*/")),
    Rule("stop-run", 3, stop_run, (r"\s+(\d+)", r"(?<!\s)\s+(\d+)")),
)
