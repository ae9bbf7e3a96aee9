"""Counts the words of the documents' sentences, and tells the longest of each page.

A sentence is what stands between two full stops, question marks or exclamation marks in a paragraph or an item of a list. Headings,
tables and blocks of code have none. What stands in backticks is one word, and of a link its text counts.

Of pages that are written for whoever runs the store the mean has a bound; of the others it is told alone.
"""
from __future__ import annotations

import re
from collections.abc import Iterator
from dataclasses import dataclass
from pathlib import Path

from trial import TOP, Findings, Result, Whole, words_of

NAME = "sentences"
PROMISES = "Sentences of the pages for whoever runs the store have 18 words at most, in the mean."
QUICK = True
FULL = SHORT = Whole()

MOST_WORDS_IN_THE_MEAN = 18.0
HELD = ("docs/OPERATIONS.md", "docs/SECURITY.md", "docs/TESTING.md", "CHANGELOG.md")
SHOWN = 3
MOST_SHOWN = 160

CODE, TABLE, HEADING, ITEM = re.compile(r"^    "), re.compile(r"^\|"), re.compile(r"^#"), re.compile(r"^\s*(?:[-*]|\d+\.)\s+")
IN_BACKTICKS, LINK = re.compile(r"`[^`]*`"), re.compile(r"!?\[([^\]]*)\]\([^)]*\)")
# What ends a sentence stands in front of a space and a word that may begin one.
END = re.compile(r"(?<=[.!?])[*)\"]*\s+(?=[\"'(*]*[A-Z0-9§-])")
WORD = re.compile(r"[^\W_]")
IN_PLACE_OF_CODE = "Code"


@dataclass(frozen=True)
class Sentence:
    """A sentence of a page."""

    text: str

    @property
    def words(self) -> int:
        return sum(bool(WORD.search(word)) for word in self.text.split())


def paragraphs(text: str) -> Iterator[str]:
    """The paragraphs and items of lists of a page, each as one line."""
    lines: list[str] = []
    is_code = False
    for line in [*text.splitlines(), ""]:
        is_code = CODE.match(line) is not None and (is_code or not lines)
        is_prose = line.strip() and not is_code and not TABLE.match(line) and not HEADING.match(line)
        if lines and (not is_prose or ITEM.match(line)):
            yield " ".join(lines)
            lines = []
        if is_prose:
            lines.append(ITEM.sub("", line).strip().removeprefix("> "))


def capital(name: str) -> str:
    """A link's text, which may begin a sentence though it is a file's name in small letters."""
    return name[:1].upper() + name[1:]


def sentences(text: str) -> list[Sentence]:
    """The sentences of a page."""
    found = []
    for paragraph in paragraphs(text):
        plain = LINK.sub(lambda link: capital(link[1]), IN_BACKTICKS.sub(IN_PLACE_OF_CODE, paragraph))
        found += [Sentence(part) for part in END.split(plain) if WORD.search(part)]
    return found


def pages() -> list[Path]:
    return [TOP / "README.md", TOP / "CHANGELOG.md", *sorted((TOP / "docs").glob("*.md"))]


def mean_of(found: list[Sentence]) -> float:
    return sum(one.words for one in found) / len(found) if found else 0.0


def run(program: Path, seed: int, size: Whole) -> Result:
    found, held = Findings(), []
    for page in pages():
        name = str(page.relative_to(TOP))
        ones = sentences(page.read_text(encoding="utf-8"))
        mean = mean_of(ones)
        found.say(f"{name}: {len(ones)} sentences, {mean:.1f} words in the mean")
        for one in sorted(ones, key=lambda one: one.words, reverse=True)[:SHOWN]:
            found.say(f"  {one.words}: {words_of(one.text, MOST_SHOWN)}")
        if name in HELD:
            held.append(mean)
            found.hold(mean <= MOST_WORDS_IN_THE_MEAN, f"{name}: {mean:.1f} words a sentence in place of {MOST_WORDS_IN_THE_MEAN:.0f}")
    found.hold(len(held) == len(HELD), f"{len(held)} pages of {len(HELD)} are there")
    return found.result(f"{len(held)} pages, {max(held, default=0.0):.1f} words at most in the mean")
