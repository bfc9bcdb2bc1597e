"""The book of `tools/reached --book`: what you have to believe, as static pages that are read from front to back.

A chapter is a page. It has the definitions that the contracts of the top calls lead to, each once with its comment, in the
order in which the files build on one another. Each name in a definition is a link to its own definition. The last pages have
the contracts of the top calls, and what is trusted of the kit's libraries.
"""
from __future__ import annotations

import html
import re
from pathlib import Path
from typing import Any, Callable, Dict, List, NamedTuple, Optional, Sequence, Set, Tuple

# A place: the full name of a module, and the name of a definition in it.
At = Tuple[str, str]
# What finds the place that a name in a module leads to, and None if there is none.
Finder = Callable[[str, str], Optional[At]]

# The chapters, in the order in which one believes: a title, what it is about, and the crates whose definitions it has.
CHAPTERS: Sequence[Tuple[str, str, Sequence[str]]] = (
    ("Texts and sets", "Codes, universes, sets of codes, letters and case folding.", ("rl_lists", "rl_lanes", "rl_ranges")),
    ("Patterns", "Which characters spell which pattern, and what is refused.", ("rl_pattern",)),
    ("Trees and cost", "What a pattern becomes, what it matches, and how many steps a match takes.",
     ("rl_syntax", "rl_machine")),
    ("Verdicts", "What a verdict, a suggestion, a comparison and a certificate promise.", (
        "rl_prio", "rl_graph", "rl_kernel", "rl_expo", "rl_degree", "rl_numbers", "rl_sets", "rl_pairs", "rl_growth",
        "rl_equiv",
        "rl_compare", "rl_trim", "rl_rewrite", "rl_cert")),
    ("Sources and calls", "Tokens of Python, the values of literals, and which calls count.",
     ("rl_pylex", "rl_pystr", "rl_sites")),
    ("Entries", "Which entries a source has, and when they are right.", ("rl_judge",)),
    ("Layouts", "How entries are written: as text, as JSON and as SARIF.", ("rl_json", "rl_report", "rl_sarif")),
    ("The run", "Files, words, settings, and what a whole run does.", (
        "rl_source", "rl_walk", "rl_words", "rl_settings", "rl_sample", "rl_lint")),
)
SECOND = ("The second program", "What the questions of relint-ask add: spans and groups, and how a text is read.")
STYLE = """body{max-width:60rem;margin:2rem auto;padding:0 1rem;font:16px/1.5 system-ui,sans-serif;color:#1b1f24;
background:#fff}
pre{background:#f5f6f8;padding:.6rem .8rem;overflow-x:auto;font:13px/1.45 ui-monospace,monospace;border-radius:4px}
a{color:#0b57a4;text-decoration:none}a:hover{text-decoration:underline}
pre b{font-weight:700}pre i{color:#5b6470;font-style:normal}
h2{margin-top:2.5rem;font-size:1.1rem}p.file{color:#5b6470;font-size:.85rem;margin:.2rem 0}
@media(prefers-color-scheme:dark){body{background:#14171a;color:#dde1e6}pre{background:#1e2328}
a{color:#7ab7f5}pre i,p.file{color:#9aa4af}}
"""
NAME = re.compile(r"[^\s(){}\[\],;.`]+")


class Text(NamedTuple):
    """A text of the book with the module whose names it uses, and the name that it defines."""

    at: At
    lines: str


class Page(NamedTuple):
    """A page: its file name, its title, what it is about, and its texts in order."""

    file: str
    title: str
    about: str
    texts: List[Text]


def anchor(at: At) -> str:
    """Returns the anchor of a definition in its page: its module and its name, in characters that an address may have."""
    return "".join(it if re.match(r"[\w.-]", it) and it.isascii() else f"-{ord(it):x}-" for it in f"{at[0]}.{at[1]}")


def in_order(modules: Set[str], imports: Callable[[str], Sequence[str]], crates: Sequence[str]) -> List[str]:
    """Returns the modules in the order in which they build on one another: those that a module imports come before it."""
    done: List[str] = []
    seen: Set[str] = set()

    def add(name: str) -> None:
        if name in seen or name not in modules:
            return
        seen.add(name)
        for other in imports(name):
            add(other)
        done.append(name)

    for name in sorted(modules, key=lambda it: (crates.index(it.split(".")[1]), it)):
        add(name)
    return done


def linked(text: Text, homes: Dict[At, str], here: str, find: Finder) -> str:
    """Returns a text as HTML: comments apart, its own name in bold, and each other name that has a home as a link."""
    module, own = text.at

    def word(found: "re.Match[str]") -> str:
        name = found.group(0)
        if name == own:
            return f"<b>{html.escape(name)}</b>"
        at = find(module, name)
        if at is None or at not in homes or at == text.at:
            return html.escape(name)
        page = "" if homes[at] == here else homes[at]
        return f'<a href="{page}#{anchor(at)}">{html.escape(name)}</a>'

    rows = []
    for line in text.lines.split("\n"):
        if line.strip().startswith(("--", "//")):
            rows.append(f"<i>{html.escape(line)}</i>")
            continue
        parts, end = [], 0
        for found in NAME.finditer(line):
            parts += [html.escape(line[end:found.start()]), word(found)]
            end = found.end()
        rows.append("".join((*parts, html.escape(line[end:]))))
    return "\n".join(rows).strip("\n")


def page_of(page: Page, around: Tuple[Optional[Page], Optional[Page]], inside: str) -> str:
    """Returns the HTML of a page with links to the pages before and behind it."""
    before, behind = around
    ways = ['<a href="index.html">Contents</a>']
    ways += [f'<a href="{it.file}">{arrow} {html.escape(it.title)}</a>' for it, arrow in ((before, "←"), (behind, "→")) if it]
    return (f'<!DOCTYPE html>\n<html lang="en"><head><meta charset="utf-8"><title>{html.escape(page.title)}</title>'
            f'<meta name="viewport" content="width=device-width"><style>{STYLE}</style></head><body>\n'
            f'<p>{" · ".join(ways)}</p>\n'
            f"<h1>{html.escape(page.title)}</h1>\n<p>{html.escape(page.about)}</p>\n{inside}\n</body></html>\n")


def body_of(page: Page, homes: Dict[At, str], find: Finder, heads: Dict[str, str]) -> str:
    """Returns the HTML of the texts of a page, with a heading and the head comment for each file."""
    parts: List[str] = []
    module = ""
    for text in page.texts:
        if text.at[0] != module:
            module = text.at[0]
            title, head = html.escape(module.replace("Rattle.", "", 1)), html.escape(heads.get(module, ""))
            parts.append(f'<h2>{title}</h2>\n<p class="file">{head}</p>')
        parts.append(f'<pre id="{anchor(text.at)}">{linked(text, homes, page.file, find)}</pre>')
    return "\n".join(parts)


def write_book(pages: List[Page], find: Finder, heads: Dict[str, str], folder: Path) -> None:
    """Writes the pages and an index into the folder, which is made if it isn't there. Raises OSError if that fails."""
    homes = {text.at: page.file for page in pages for text in page.texts}
    folder.mkdir(parents=True, exist_ok=True)
    for number, page in enumerate(pages):
        around = (pages[number - 1] if number else None, pages[number + 1] if number + 1 < len(pages) else None)
        (folder / page.file).write_text(page_of(page, around, body_of(page, homes, find, heads)), encoding="utf-8")
    rows = "\n".join(
        f'<li><a href="{it.file}">{html.escape(it.title)}</a>: {html.escape(it.about)} '
        f'{len(it.texts):,} definitions, {sum(text.lines.count(chr(10)) + 1 for text in it.texts):,} lines.</li>'
        for it in pages)
    start = Page("index.html", "What has to be believed",
                 "The definitions that the contracts of relint lead to, from front to back.", [])
    text = page_of(start, (None, pages[0] if pages else None), f"<ol>\n{rows}\n</ol>")
    (folder / start.file).write_text(text, encoding="utf-8")


def chapters_of(found: Dict[str, Any], order: Callable[[Set[str]], List[str]],
                texts: Callable[[str, Set[str]], List[Text]]) -> List[Page]:
    """Returns the pages of the definitions: `found["top"]` in chapters, and what only `found["second"]` has in a chapter of
    its own.

    `order` puts modules in order, and `texts` gives the texts of some names of a module.
    """
    pages: List[Page] = []
    taken: Set[At] = set()

    def add(title: str, about: str, places: Set[At]) -> None:
        if places:
            by_module: Dict[str, Set[str]] = {}
            for module, name in places:
                by_module.setdefault(module, set()).add(name)
            lines = [text for module in order(set(by_module)) for text in texts(module, by_module[module])]
            pages.append(Page(f"{len(pages) + 1}-{title.lower().replace(' ', '-')}.html", title, about, lines))
            taken.update(places)

    for title, about, crates in CHAPTERS:
        add(title, about, {it for it in found["top"] if it[0].split(".")[1] in crates})
    add(*SECOND, {it for it in found["second"] if it not in taken})
    return pages
