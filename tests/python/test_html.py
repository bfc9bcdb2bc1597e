"""The HTML page: its parts, that nothing of a source becomes markup, and how a browser takes it."""
from __future__ import annotations

import base64
import hashlib
import os
import re
import tempfile
import unittest
from dataclasses import replace
from html.parser import HTMLParser
from typing import Any, Dict, List, Optional, Sequence, Tuple

import chromium
from relint.base.model import (
    ACCEPTED, ELSEWHERE, Finding, Holder, Literal, Narrowed, NotLooked, Reading, Site, Use, Uses, Why,
)
from relint.code.source import offsets_of
from relint.options import Options
from relint.show import html
from screens_support import ROWS, SUMMARY, cubic, exponential, refused, site, step, undecided

NO_BROWSER = "" if chromium.installed() else "chromium isn't installed"
HOSTILE = "</script><script>window.hostile=1</script><img src=x onerror=window.hostile=1>&#60;b&lt;\u2028\u202e\x1b\"'"
EMPTY_TAGS = ("meta", "input")


def page(findings: Sequence[Finding], summary: Any = SUMMARY, **more: Any) -> str:
    return "\n".join(html.lines(findings, summary, Options(**more)))


def mixed() -> List[Finding]:
    finding = cubic()
    assert finding.site is not None
    elsewhere = replace(finding.site, literals=(), offsets=(), holders=(Holder("WORD", "b.py", 3),), notes=("a note",))
    return [finding, exponential(), refused(), undecided(), exponential(state=ACCEPTED, reason="old"),
            cubic(known=ELSEWHERE, site=elsewhere)]


def hostile() -> List[Finding]:
    entry = replace(exponential().entry, path=HOSTILE)
    nasty = exponential(entry=entry, reason=HOSTILE, lines=((2, HOSTILE),), uses=Uses((Use("match", HOSTILE, 1),)),
                        site=replace(site(HOSTILE, 0), notes=(HOSTILE,), holders=(Holder(HOSTILE, HOSTILE, 1),)))
    offer = replace(nasty.offers[0], pattern=HOSTILE, literal=HOSTILE, differs=HOSTILE, kind="advice")
    return [replace(nasty, offers=(offer,)), replace(refused(), entry=replace(refused().entry, path=HOSTILE, cause=HOSTILE))]


class Reader(HTMLParser):
    """Reads a page: its tags with their attributes, its text, and whether tags close in order."""

    def __init__(self, text: str) -> None:
        super().__init__(convert_charrefs=True)
        self.tags: List[Tuple[str, Dict[str, Optional[str]]]] = []
        self.open: List[str] = []
        self.faults: List[str] = []
        self.text = ""
        self.feed(text)
        self.close()

    def handle_starttag(self, tag: str, attrs: List[Tuple[str, Optional[str]]]) -> None:
        self.tags.append((tag, dict(attrs)))
        self.open += [] if tag in EMPTY_TAGS else [tag]

    def handle_endtag(self, tag: str) -> None:
        if not self.open or self.open.pop() != tag:
            self.faults.append(tag)

    def handle_data(self, data: str) -> None:
        self.text += data


class Pages(unittest.TestCase):
    """The text of the page."""

    def test_what_it_says(self) -> None:
        summary = replace(SUMMARY, narrowed=(Narrowed("p.toml", "exclude", 12),), not_looked=(NotLooked("b.py",
                                                                                                        "it is a link"),))
        found = Reader(page(mixed(), summary))
        self.assertEqual((found.faults, found.open), ([], []))
        for said in ("a text of 30 characters keeps this search busy for about a minute", '"00" can be read in two ways',
                     "a bar is a new round of (\\w+,?)*", 're.search(r"^(\\w+,?)*$", "0" * 29 + " ")', "from WORD (b.py:3)",
                     "linear, and finds the same (proved)", "configuration: p.toml (exclude hides 12)", "b.py: it is a link",
                     "RLT201", "accepted: old", "What to do:", "5 patterns in 1 file", "rlt 2.0.0"):
            self.assertIn(said, found.text)
        self.assertEqual(sum(tag == "article" for tag, _ in found.tags), 3)
        self.assertEqual(len({it["id"] for _, it in found.tags if "id" in it}), sum("id" in it for _, it in found.tags))

    def test_the_ways_are_coloured_like_the_parts(self) -> None:
        text = page([cubic()])
        self.assertIn(r'r&quot;<b class="p0">\s</b>+(<b class="p1">.+</b>), subnet&quot;', text)
        self.assertIn('<b class="p0">A</b> <b class="p0">A</b> <b class="p0">A</b> <b class="p1">B</b>', text)
        self.assertIn('<b class="p0">A</b> <b class="p0">A</b><span class="bar">|</span><b class="p0">A</b>',
                      page([exponential()]))

    def test_parts_that_are_written_in_pieces(self) -> None:
        literals = (Literal(r'"^(\\w+"', 28, 36), Literal(r'",?)*$"', 55, 62))
        written = Site(ROWS, 0, literals, offsets_of(literals, ROWS))
        ways = ((step((2, 7)), step((2, 7), ((1, 9), "round"))), (step((2, 7), ((1, 9), "round")),) * 2)
        found = exponential(site=written, why=Why((Reading("00", ways, 0),)), lines=(
            (2, r'ROWS = re.compile("^(\\w+"'), (3, '                  ",?)*$")')))
        text = page([found])
        self.assertIn(r'<b class="p0">\</b>\<b class="p0">w+</b>&quot;', text)
        self.assertIn('&quot;<b class="p0">,?</b>)*$&quot;', text)

    def test_the_most_that_are_shown_in_full(self) -> None:
        found = Reader(page(mixed(), most=1))
        self.assertEqual(sum(tag == "article" for tag, _ in found.tags), 1)
        self.assertIn("5 entries more", found.text)
        many = Reader(page([refused()] * (html.MOST_ROWS + 5)))
        self.assertEqual((sum(tag == "tr" for tag, _ in many.tags), "and 5 more" in many.text), (html.MOST_ROWS + 1, True))

    def test_nothing_of_a_source_is_markup(self) -> None:
        summary = replace(SUMMARY, notes=(HOSTILE,), not_looked=(NotLooked(HOSTILE, HOSTILE),), added_accepts=((HOSTILE, 1,
                                                                                                                HOSTILE),))
        text = page(hostile(), summary)
        found = Reader(text)
        self.assertEqual(([tag for tag, _ in found.tags if tag in ("img", "a", "iframe")], found.faults), ([], []))
        self.assertEqual(sum(tag == "script" for tag, _ in found.tags), 1)
        self.assertFalse(set(text) & set("\u2028\u202e\x1b"))
        self.assertFalse([it for _, its in found.tags for it in its if it.startswith("on")])

    def test_no_command_of_a_build_server(self) -> None:
        for command in ("##[error]x", "##vso[task.complete]x"):
            it = exponential(site=site(f"({command}|a|a)*b", 28), reason=command)
            text = page([it], replace(SUMMARY, notes=(command,)))
            self.assertNotIn(command, text)
            self.assertIn(command, Reader(text).text)

    def test_the_policy_lets_only_its_own_style_and_script_run(self) -> None:
        text = page(mixed())
        policy = re.search(r'Content-Security-Policy" content="([^"]+)"', text)
        assert policy is not None
        for tag in ("style", "script"):
            inside = text.split(f"<{tag}>", 1)[1].split(f"</{tag}>", 1)[0]
            pinned = base64.b64encode(hashlib.sha256(inside.encode()).digest()).decode()
            self.assertIn(f"{tag}-src &#x27;sha256-{pinned}&#x27;", policy[1])
        self.assertTrue(policy[1].startswith("default-src &#x27;none&#x27;"))
        self.assertNotRegex(text, "https?:")


@unittest.skipIf(NO_BROWSER, NO_BROWSER)
class Browsers(unittest.TestCase):
    """The page in a headless Chromium."""

    def test_wide_and_narrow_light_and_dark(self) -> None:
        with tempfile.TemporaryDirectory() as folder, chromium.Browser() as browser:
            for name, findings in (("page", mixed()), ("hostile", hostile())):
                path = os.path.join(folder, f"{name}.html")
                with open(path, "w", encoding="utf-8") as file:
                    file.write(page(findings))
                grounds = set()
                for width in (1200, 360):
                    for scheme in ("light", "dark"):
                        browser.size(width, 800)
                        browser.looks(scheme)
                        browser.open("file://" + path)
                        self.assertEqual(browser.complaints(), [])
                        self.assertTrue(browser.run("document.documentElement.scrollWidth <= innerWidth"), (name, width))
                        grounds.add(browser.run("getComputedStyle(document.body).backgroundColor"))
                self.assertEqual(len(grounds), 2)
                self.assertIsNone(browser.run("window.hostile || null"))

    def test_buttons_and_the_filter(self) -> None:
        with tempfile.TemporaryDirectory() as folder, chromium.Browser() as browser:
            path = os.path.join(folder, "page.html")
            with open(path, "w", encoding="utf-8") as file:
                file.write(page(mixed()))
            browser.open("file://" + path)
            self.assertEqual(browser.run("document.querySelectorAll('button:not([hidden])').length"), 3)
            browser.run("document.querySelector('button').click()")
            self.assertEqual(browser.awaited("document.getElementById('status').textContent !== ''", True), True)
            browser.run("document.getElementById('others').open = true; const it = document.getElementById('filter'); "
                        "it.value = 'lookaround'; it.dispatchEvent(new Event('input'))")
            self.assertEqual(browser.run("document.querySelectorAll('#others tbody tr:not([hidden])').length"), 1)


if __name__ == "__main__":
    unittest.main()
