"""What `bench/class` and `bench/suggest` do: measure the shapes that are kept, or search for slower ones."""
from __future__ import annotations

import argparse
from typing import Callable, List, Sequence

from measure import Run, least, load, positive, program_at
from shapes import Found, Shape, line, search, slowest

RUNS, KEPT = 3, 10


def measure_shapes(page: str, shapes: Sequence[Shape], judge: Callable[[str, Shape], Run]) -> int:
    """Prints the slowest shapes of `shapes`, all of them with --all, or random ones with --search; returns the exit status 0.

    `page` is the docstring of the command, and `judge` runs the program, whose path it takes, on a shape. Ends this command
    with status 2 if the options aren't valid, or if there is no program.
    """
    asked = _given(page)
    program = program_at(asked.program)
    if asked.search:
        found, tried = search(lambda shape: judge(program, shape), asked.search, asked.seed, KEPT)
        end = f"{tried:,} shapes of the seed {asked.seed}; {load()}"
    else:
        found = _measured(program, shapes, judge)
        found = found if asked.all else found[:KEPT]
        end = f"the best of {RUNS} runs; {load()}"
    for it in found:
        print(line(it.run, it.shape, asked.whole))
    print(end)
    return 0


def _measured(program: str, shapes: Sequence[Shape], judge: Callable[[str, Shape], Run]) -> List[Found]:
    """Returns the shapes, the slowest first, each with the least time and the least memory of RUNS runs of the program."""
    runs = [least([judge(program, it) for _ in range(RUNS)]) for it in shapes]
    return slowest([Found(took, shape, at) for at, (took, shape) in enumerate(zip(runs, shapes))], len(shapes))


def _given(page: str) -> argparse.Namespace:
    """Returns the options of the command line. Ends the program with status 2 if they aren't valid."""
    options = argparse.ArgumentParser(description=page.split("\n", maxsplit=1)[0], allow_abbrev=False)
    options.add_argument("program", metavar="PROGRAM", nargs="?", help="relint (default: crates/relint/out/relint)")
    options.add_argument("--all", action="store_true", help="print all shapes that are kept, not the ten slowest alone")
    options.add_argument("--search", type=positive, metavar="SECONDS", help="judge random shapes for so long")
    options.add_argument("--seed", type=int, default=1, help="which random shapes (default: 1)")
    options.add_argument("--whole", action="store_true", help="print patterns whole")
    return options.parse_args()
