"""Writes the cases of a crate of tests that is a program: its `stdin`, a line a case, and the `stdout` that is wanted of it."""
import pathlib
from typing import Iterable, Tuple

CRATES = pathlib.Path(__file__).resolve().parent.parent / "crates"


def settle(crate: str, cases: Iterable[Tuple[str, str]], check: bool = False, end: str = "\n") -> int:
    """Writes both files of a crate, of lines and what stands in their places, each with this end. With check nothing is written.
    Counts the cases, which are the lines that begin with no `#`, and gives 1 where check finds that a file differs, else 0."""
    made = list(cases)
    texts = {"stdin": "".join(line + "\n" for line, _ in made), "stdout": "".join(said + end for _, said in made)}
    print("%s: %d cases" % (crate, sum(not line.startswith("#") for line, _ in made)))
    if check:
        return int(any((CRATES / crate / name).read_text(encoding="utf-8") != text for name, text in texts.items()))
    for name, text in texts.items():
        (CRATES / crate / name).write_text(text, encoding="utf-8")
    return 0
