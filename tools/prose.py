#!/usr/bin/env python3
"""Counts the words of documents, the lengths of their sentences, and what two of them say in the same words.

usage: prose.py [FILE..]

Without FILE it takes README.md, CONTRIBUTING.md and docs/*.md. Blocks of code are left out. A cell of a table and an item
of a list end a sentence. A word is what stands between spaces and has a letter or a digit. Each document has a row: its
words, its sentences, the mean and the longest of their lengths, how many have more than 40 words, and how many runs of
seven words stand in another of the documents too.
"""
import argparse
import collections
import pathlib
import re
import sys
from typing import Dict, Iterable, Iterator, List, Set, Tuple

TOP = pathlib.Path(__file__).resolve().parent.parent
LONG = 40
RUN = 7

# What ends a sentence: a stop, perhaps behind a bracket or a mark, before a space and what begins the next one.
END = re.compile(r"(?<=[.!?])[)*\"']*\s+(?=[A-Z`*(\"'0-9])")
# What begins an item of a list.
ITEM = re.compile(r"^\s*(?:[-*]|\d+\.)\s+")


def parts(text: str) -> Iterator[str]:
    """The paragraphs, the items and the cells of a document, without its blocks of code."""
    text = re.sub(r"<!--.*?-->", "", re.sub(r"^```.*?^```", "", text, flags=re.S | re.M), flags=re.S)
    held: List[str] = []
    for line in [*text.splitlines(), ""]:
        row = line.startswith("|")
        starts = row or not line.strip() or line.startswith(("#", "    ")) or bool(ITEM.match(line))
        if starts and held:
            yield " ".join(held)
            held = []
        if row:
            cells = re.split(r"(?<!\\)\|", line.strip("|"))
            yield from (cell for cell in cells if not re.fullmatch(r"[\s:-]*", cell))
        elif line.startswith("#"):
            yield line.lstrip("# ")
        elif line.strip() and not line.startswith("    "):
            held.append(ITEM.sub("", line).strip())


def words(text: str) -> List[str]:
    """The words of a text."""
    return [word for word in text.split() if re.search(r"\w", word)]


def sentences(text: str) -> List[List[str]]:
    """The sentences of a document, each as its words."""
    found = [words(sentence) for part in parts(text) for sentence in END.split(part)]
    return [sentence for sentence in found if sentence]


def runs(text: str) -> Set[Tuple[str, ...]]:
    """The runs of seven words within the sentences of a document."""
    found = set()
    for sentence in sentences(text):
        plain = [re.sub(r"\W+", "", word).lower() for word in sentence]
        found |= {tuple(plain[i : i + RUN]) for i in range(len(plain) - RUN + 1)}
    return found


def doubles(texts: Dict[str, str]) -> Dict[str, int]:
    """Of each document, how many of its runs of words stand in another one."""
    each = {name: runs(text) for name, text in texts.items()}
    seen = collections.Counter(run for those in each.values() for run in those)
    return {name: sum(seen[run] > 1 for run in those) for name, those in each.items()}


def table(texts: Dict[str, str]) -> Iterator[str]:
    """The rows of what is counted."""
    yield "%-40s %7s %9s %5s %8s %8s %8s" % ("document", "words", "sentences", "mean", "longest", "over %d" % LONG, "doubles")
    twice = doubles(texts)
    for name, text in texts.items():
        lengths = [len(sentence) for sentence in sentences(text)] or [0]
        over = sum(length > LONG for length in lengths)
        mean = sum(lengths) / len(lengths)
        yield "%-40s %7d %9d %5.1f %8d %8d %8d" % (name, sum(lengths), len(lengths), mean, max(lengths), over, twice[name])


def documents(names: Iterable[str]) -> Dict[str, str]:
    """The texts of these files, or of the documents of the repository."""
    files = [pathlib.Path(name) for name in names] or [TOP / "README.md", TOP / "CONTRIBUTING.md", *sorted(TOP.glob("docs/*.md"))]
    return {(str(it.relative_to(TOP)) if TOP in it.parents else str(it)): it.read_text(encoding="utf-8") for it in files}


def main() -> None:
    parser = argparse.ArgumentParser(prog="prose.py", description=" ".join(__doc__.partition("\n\n")[0].split()))
    parser.add_argument("file", nargs="*", metavar="FILE", help="a document; without one, those of the repository")
    parser.add_argument("--long", type=int, metavar="N", help="show the sentences that have more than N words")
    chosen = parser.parse_args()
    texts = documents(chosen.file)
    print("\n".join(table(texts)))
    if chosen.long is not None:
        for name, text in texts.items():
            for sentence in sentences(text):
                if len(sentence) > chosen.long:
                    print("%s: %d: %s" % (name, len(sentence), " ".join(sentence)))


if __name__ == "__main__":
    sys.exit(main())
