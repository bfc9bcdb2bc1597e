"""bench/plot: labels on the canvas, lines that can be told apart, titles, times of bench/growth, and mistakes."""
from __future__ import annotations

import os
import re
import unittest
from pathlib import Path
from typing import Dict, List, Tuple
from xml.dom import minidom

from relint.engine import program
from show_support import Ran, folder, no_program, tool

NO_PROGRAM = no_program()
# Says of each pattern degree 1, but of the one that is named so, and of each text as many steps as it has characters.
STAND_IN = """#!/bin/sh
for it in "$@"; do last=$it; done
case $1.$last in
    class.undecided) echo 'undecided pairs over 600' ;;
    class.wrong) echo 'relint: refused syntax at 1' >&2; exit 2 ;;
    class.long) printf 'degree 0\\n  family x0 r"%s"\\n' "$(printf '%1001s' a)" ;;
    class.*) printf 'degree 1\\n  family x0 r"" y1 r"%s" x1 r"b"\\n' "$(printf '%400s' a)" ;;
    cost.*) echo "steps ${#last} matched" ;;
esac
"""
TIMES = """   348.0 ms  500 files
   850.0 ms  1,000 files, 2.4 times the one before
     0.5 ms  15 letters, each with a loop of its own (twice the letters)
    16.5 ms  120 letters, each with a loop of its own (twice the letters), 5.0 times the one before
nothing
"""


def plotted(*words: str) -> Ran:
    """A run of bench/plot with the stand-in."""
    with folder({"stand-in": STAND_IN, "times": TIMES}) as here:
        os.chmod(str(here / "stand-in"), 0o755)
        return tool("bench/plot", *words, *([] if "--times" in words else ["--program", "./stand-in"]))


def elements(chart: str, name: str) -> List[Dict[str, str]]:
    """The attributes of each element of this name."""
    found = minidom.parseString(chart.encode("utf-8")).getElementsByTagName(name)
    return [dict(it.attributes.items()) for it in found]


def texts(chart: str) -> List[Tuple[float, str]]:
    """The texts of a chart that stand beside it, with their heights."""
    found = minidom.parseString(chart.encode("utf-8")).getElementsByTagName("text")
    beside = [it for it in found if it.getAttribute("x") and float(it.getAttribute("x")) > 580 and it.hasAttribute("fill")
              and not it.hasAttribute("text-anchor")]
    return [(float(it.getAttribute("y")), it.firstChild.nodeValue or "") for it in beside if it.firstChild]


def places(line: Dict[str, str]) -> List[Tuple[float, float]]:
    """The points of a line of the chart."""
    return [(float(x), float(y)) for x, y in re.findall(r"([-\d.]+),([-\d.]+)", line["points"])]


class Charts(unittest.TestCase):
    """What is drawn."""

    def test_labels_stay_on_the_canvas_and_apart(self) -> None:
        for count in (1, 8, 25):
            ran = plotted(*(f"a{it}" for it in range(count)))
            self.assertEqual((ran.status, ran.err), (0, ""))
            height = float(elements(ran.out, "svg")[0]["height"])
            heights = sorted(y for y, text in texts(ran.out))
            self.assertEqual(len(heights), 2 * count)
            self.assertTrue(0 < heights[0] and heights[-1] < height, count)
            self.assertTrue(all(b - a > 10 for a, b in zip(heights, heights[1:])), count)

    def test_no_two_lines_look_the_same(self) -> None:
        lines = elements(plotted(*(f"a{it}" for it in range(40))).out, "polyline")
        self.assertEqual(len({(it["stroke"], it.get("stroke-dasharray")) for it in lines}), 40)

    def test_all_points_are_on_the_canvas(self) -> None:
        chart = plotted("a").out
        points = places(elements(chart, "polyline")[0])
        # the texts have 401 and 801 characters, and as many steps
        self.assertEqual(len(points), 2)
        self.assertTrue(all(80 <= x <= 580 and 50 <= y <= 440 for x, y in points))

    def test_the_title_shows_the_mode(self) -> None:
        for mode in ("search", "match"):
            self.assertEqual(plotted("--mode", mode, "a").out.count(f"length of the text ({mode})<"), 2)
        self.assertEqual(plotted("--title", "<A & B>", "a").out.count("&lt;A &amp; B&gt;"), 2)

    def test_names_of_patterns_are_no_markup(self) -> None:
        chart = plotted("<&\x01\n").out
        self.assertIn("<&\\x01\\n", [text for _, text in texts(chart)])

    def test_a_pattern_without_a_line_is_named(self) -> None:
        ran = plotted("a", "undecided", "long")
        self.assertEqual((ran.status, len(elements(ran.out, "polyline"))), (0, 1))
        self.assertEqual(ran.err, "plot: undecided: no line: undecided pairs over 600\n"
                                  "plot: long: no line: its texts are too long or have the code 0\n")
        self.assertIn("undecided pairs over 600", [text for _, text in texts(ran.out)])

    def test_times(self) -> None:
        ran = plotted("--times", "times")
        self.assertEqual((ran.status, ran.err), (0, ""))
        self.assertEqual([text for _, text in texts(ran.out)],
                         ["files", "850.0 ms for 1,000", "letters", "16.5 ms for 120"])
        files, letters = (places(it) for it in elements(ran.out, "polyline"))
        self.assertEqual((len(files), len(letters)), (2, 2))
        # a power of ten is as wide everywhere: from 10 to 1,000 across, from 0.1 to 1,000 up
        self.assertAlmostEqual(files[1][0], 580, delta=0.1)
        self.assertAlmostEqual(files[1][0] - files[0][0], 250 * 0.30103, delta=0.2)


class Mistakes(unittest.TestCase):
    """A line on standard error, and no chart."""

    def assert_refused(self, ran: Ran, status: int, last: str) -> None:
        self.assertEqual((ran.status, ran.out), (status, ""), ran.err)
        self.assertNotIn("Traceback", ran.err)
        self.assertRegex(ran.err.splitlines()[-1], last)

    def test_programs_that_cannot_be_asked(self) -> None:
        for name in ("./nothing", "/", "./times"):
            with folder({"times": TIMES}):
                self.assert_refused(tool("bench/plot", "--program", name, "a"), 1, rf"^plot: {name} can't be run: ")
        self.assert_refused(tool("bench/plot", "--program", "/bin/false", "a"), 1, "ended with status 1 and said nothing$")

    def test_no_line_at_all(self) -> None:
        with folder({"stand-in": STAND_IN, "kept.svg": "old"}) as here:
            os.chmod(str(here / "stand-in"), 0o755)
            ran = tool("bench/plot", "--program", "./stand-in", "--output", "kept.svg", "undecided")
            self.assertEqual(Path("kept.svg").read_text(encoding="utf-8"), "old")
        self.assert_refused(ran, 1, "^plot: no pattern has a line, so there is no chart$")

    def test_a_pattern_that_is_refused_is_named(self) -> None:
        self.assert_refused(plotted("a", "wrong"), 1, "^plot: wrong: refused syntax at 1$")

    def test_words(self) -> None:
        self.assert_refused(plotted(), 2, "name patterns, or a file after --times$")
        self.assert_refused(plotted("--times", "times", "a"), 2, "name patterns, or a file after --times$")
        self.assert_refused(plotted(*["a"] * 41), 2, "41 patterns are too many: there is room for 40$")

    def test_files(self) -> None:
        self.assert_refused(plotted("--times", "nothing"), 1, "^plot: nothing can't be read: No such file or directory$")
        self.assert_refused(plotted("--times", "stand-in"), 1, "^plot: stand-in has no lines of bench/growth$")
        self.assert_refused(plotted("--output", "none/a.svg", "a"), 1, "^plot: none/a.svg can't be written: ")


@unittest.skipIf(NO_PROGRAM, NO_PROGRAM)
class WithTheProgram(unittest.TestCase):
    """The lines of the program that is tested."""

    def test_a_degree_is_a_slope(self) -> None:
        ran = tool("bench/plot", "--program", program.located("relint"), "a*", "a*a*")
        self.assertEqual((ran.status, ran.err), (0, ""))
        slopes = []
        for line in elements(ran.out, "polyline"):
            (x0, y0), (x1, y1) = places(line)[-8], places(line)[-1]
            slopes.append((y0 - y1) / (x1 - x0))
        self.assertAlmostEqual(slopes[1] / slopes[0], 2, delta=0.1)


if __name__ == "__main__":
    unittest.main()
