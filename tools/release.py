#!/usr/bin/env python3
"""The release check: all that the gate leaves out for its time, one part after another or side by side.

usage: release.py [--list] [--only PART].. [--jobs N] [--anew]

The parts are the whole gate from nothing (`rt ci --anew`), each wrong body that the gate does not try, the inputs that are
made to go wrong (hostile.py), the library of this Python (stdlib.py), 5,000 runs beside the model (beside_model.py), and
`rt plant` on the crates of `run`. Parts that want the proved program come after the gate.

What a part came to is kept in out/release.json of this checkout, with the commit: a call that is stopped goes on where it
was, and --anew forgets it. The check is of a commit: with changes that are not committed, nothing is run. When all parts
have ended, docs/RELEASE.md tells what each came to, with commit, kit and date. The status is 1 where a part failed, 2 where
the words are not as above, and 130 where the call is interrupted.
"""
import argparse
import concurrent.futures
import datetime
import json
import os
import pathlib
import subprocess
import sys
import threading
import time
from typing import Dict, List, NamedTuple, Optional

ROOT = pathlib.Path(__file__).resolve().parent.parent
KEPT = ROOT / "out" / "release.json"
DOCUMENT = ROOT / "docs" / "RELEASE.md"

# The memory that a part which proves is given, in bytes.
PROVES = 6 * 10**9

HOSTILE = ("allocations", "calls", "rows", "files", "devices", "stack", "words")

# The crates whose own bodies make up `run`, as rt plant takes them.
PLANTED = ("codegen", "py_run")


class Part(NamedTuple):
    """A part of the check: its name, what is called, and whether it proves."""

    name: str
    words: List[str]
    proves: bool


def parts_of(top: pathlib.Path) -> List[Part]:
    """The parts in their order; the first has to end before the others begin."""
    tool = [sys.executable, "-B"]
    found = [Part("gate", ["rt", "ci", "--anew"], True)]
    on_demand = sorted({it.parent.parent.name for it in top.glob("crates/*/must-fail/*.md")})
    found += [Part("wrong bodies of " + it, [*tool, "tools/try_wrong_bodies.py", "--together", it], True) for it in on_demand]
    found += [Part("plant " + it, ["rt", "plant", it], True) for it in PLANTED]
    found += [Part("hostile " + it, [*tool, "tools/hostile.py", it], False) for it in HOSTILE]
    found.append(Part("library", [*tool, "tools/stdlib.py"], False))
    found.append(Part("beside the model", [*tool, "tools/beside_model.py", "--runs", "5000"], False))
    return found


class Record:
    """What each part came to, kept in a file from one call to the next as long as the commit is the same."""

    def __init__(self, path: pathlib.Path, commit: str) -> None:
        self.path, self.commit = path, commit
        self.ended: Dict[str, Dict[str, object]] = {}
        self.lock = threading.Lock()
        try:
            kept = json.loads(path.read_text(encoding="utf-8"))
            if kept["commit"] == commit:
                self.ended = kept["ended"]
        except (OSError, ValueError, KeyError):
            pass

    def note(self, name: str, status: int, seconds: float, line: str) -> None:
        """Notes how a part ended, and writes the file under another name first, so that it is never half written."""
        with self.lock:
            self.ended[name] = {"status": status, "seconds": round(seconds), "line": line}
            self.path.parent.mkdir(exist_ok=True)
            other = self.path.with_suffix(".new")
            other.write_text(json.dumps({"commit": self.commit, "ended": self.ended}, indent=1), encoding="utf-8")
            os.replace(other, self.path)

    def passed(self, name: str) -> bool:
        """Whether a part ended well."""
        return name in self.ended and self.ended[name]["status"] == 0


def run_part(part: Part, record: Record) -> None:
    """Runs a part. All that it writes goes to a log beside the record, whose last line is told."""
    log = record.path.parent / ("release-%s.log" % part.name.replace(" ", "-"))
    log.parent.mkdir(exist_ok=True)
    start = time.monotonic()
    with open(log, "wb") as out:
        status = subprocess.run(part.words, cwd=ROOT, stdin=subprocess.DEVNULL, stdout=out, stderr=subprocess.STDOUT).returncode
    lines = [it for it in log.read_text(encoding="utf-8", errors="replace").splitlines() if it.strip()]
    record.note(part.name, status, time.monotonic() - start, lines[-1] if lines else "")
    print("%s: %s" % (part.name, "ok" if status == 0 else "failed, see %s" % log.relative_to(ROOT)), flush=True)


def jobs_here() -> int:
    """How many parts that prove this machine runs at once."""
    memory = os.sysconf("SC_PAGE_SIZE") * os.sysconf("SC_PHYS_PAGES")
    return max(1, min(os.cpu_count() or 1, memory // PROVES))


def run_all(parts: List[Part], record: Record, jobs: int) -> None:
    """Runs the parts that have not passed, the gate alone and first."""
    left = [it for it in parts if not record.passed(it.name)]
    for part in [it for it in left if it.name == "gate"]:
        run_part(part, record)
        if not record.passed("gate"):
            return
    with concurrent.futures.ThreadPoolExecutor(jobs) as pool:
        for done in [pool.submit(run_part, it, record) for it in left if it.name != "gate"]:
            done.result()


def said(*words: str) -> Optional[str]:
    """What a call writes, without its line end, or None where it cannot be made."""
    try:
        return subprocess.run(words, cwd=ROOT, stdout=subprocess.PIPE, stderr=subprocess.DEVNULL, check=True).stdout.decode().strip()
    except (OSError, subprocess.CalledProcessError):
        return None


def report(parts: List[Part], record: Record, kit: str, date: str) -> str:
    """The text of docs/RELEASE.md."""
    lines = ["# The last release check", "", "`tools/release.py` writes this page.", ""]
    lines += ["| Commit | Kit | Date |", "|---|---|---|", "| %s | %s | %s |" % (record.commit[:12], kit, date), ""]
    lines += ["| Part | Ended | Minutes | Its last line |", "|---|---|---|---|"]
    for part in parts:
        it = record.ended[part.name]
        ended = "ok" if it["status"] == 0 else "failed (%s)" % it["status"]
        line = str(it["line"]).replace("|", "\\|")
        lines.append("| %s | %s | %d | `%s` |" % (part.name, ended, round(float(str(it["seconds"])) / 60), line[:160]))
    return "\n".join(lines) + "\n"


def main() -> int:
    parser = argparse.ArgumentParser(prog="release.py", description=__doc__.split("\n")[0])
    parser.add_argument("--list", action="store_true", help="tell the parts and what each is called by, and run nothing")
    parser.add_argument("--only", action="append", default=[], metavar="PART", help="run this part alone, with others that are named so; no report is written")
    parser.add_argument("--jobs", type=int, default=jobs_here(), metavar="N", help="how many parts run at once behind the gate (%(default)s)")
    parser.add_argument("--anew", action="store_true", help="forget what earlier calls have run")
    words = parser.parse_args()
    parts = parts_of(ROOT)
    unknown = [it for it in words.only if it not in {part.name for part in parts}]
    if unknown:
        parser.error("there is no part %s: --list tells them" % unknown[0])
    if words.list:
        print("\n".join("%s: %s" % (it.name, " ".join(it.words)) for it in parts))
        return 0
    commit = said("git", "rev-parse", "HEAD")
    if commit is None or said("git", "status", "--porcelain"):
        parser.error("the check is of a commit, and this checkout has none or has changes")
    if words.anew and KEPT.exists():
        KEPT.unlink()
    record = Record(KEPT, commit)
    chosen = [it for it in parts if not words.only or it.name in words.only]
    run_all(chosen, record, words.jobs)
    if not words.only and all(it.name in record.ended for it in parts):
        DOCUMENT.write_text(report(parts, record, said("rt", "version") or "no kit", datetime.date.today().isoformat()), encoding="utf-8")
    return 0 if all(record.passed(it.name) for it in chosen) else 1


if __name__ == "__main__":
    try:
        sys.exit(main())
    except KeyboardInterrupt:
        sys.exit(130)
