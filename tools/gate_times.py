#!/usr/bin/env python3
"""Measures what a run of `rt ci` takes, crate by crate, and makes the table of docs/PERFORMANCE.md, "The gate".

usage: gate_times.py --watch RECORD [--at FOLDER]
       gate_times.py RECORD [--log LOG] [--least MINUTES]

`rt ci` keeps no times, so they are read from /proc while it runs. With --watch, the processes that the `rt ci` of the
checkout FOLDER (this one, where none is named) has started are looked at each second, until that run ends, and what each
took is written to RECORD. A run may be watched from its middle on: a process that runs then is counted whole, and one
that has ended is not. A process loses what it took after the last look, a second at most.

Without --watch the table is written to standard output: a row for each crate, with the processor minutes of its proof,
of its tests, of its wrong bodies and of what the two compilers make of it, and the minutes on the clock from the first
of its processes to the end of the last. Crates of less than MINUTES (0 where none is named) are one row. The chain is the
longest on the clock of those whose crates each use the one before. With LOG, what the run printed, the crates are named
whose proofs it took from an earlier run, and those that it did not prove; others that the record lacks are named in any
case.

RECORD has a JSON object a line. The first says where and of what: machine, processors, memory_gb, commit, kit and began.
Each other one says what a process has taken so far, and the last one of a process counts: pid and began tell which process
it is, crate and kind what it does, processor and clock the seconds that it took.
"""
import argparse
import collections
import json
import os
import pathlib
import re
import subprocess
import sys
import time
from typing import Dict, IO, Iterable, List, NamedTuple, Optional, Sequence, Tuple

import build

ROOT = pathlib.Path(__file__).resolve().parent.parent
PROC = pathlib.Path("/proc")
TICKS = os.sysconf("SC_CLK_TCK")

# What a process of a run may do, in the order of the table's columns.
PROOF, TESTS, EDITS, CODE = KINDS = ("proof", "tests", "edits", "code")

# Seconds from one look to the next, from one line of a running process to its next, and until a run has begun.
LOOK, WRITE, PATIENCE = 1.0, 20.0, 600.0


class Taken(NamedTuple):
    """What a process has taken so far: when it began (seconds since 1970), and its seconds of processor time and on the clock."""

    pid: int
    began: float
    crate: str
    kind: str
    processor: float
    clock: float


def kind_of(words: Sequence[str], folder: str) -> Optional[Tuple[str, str]]:
    """The crate and the kind of a process with these words in this folder; None where it is no process of the prover."""
    if len(words) < 2 or os.path.basename(words[0]) != "rattle" or "--crate-name" not in words[:-1]:
        return None
    crate = words[words.index("--crate-name") + 1]
    if os.path.basename(folder).startswith("rt-edit-"):
        return crate, EDITS
    if "--crate-checked" in words:
        return crate, CODE
    return crate, TESTS if any(re.fullmatch(r"out/\w+_tests\.o", it) for it in words) else PROOF


def fields_of(stat: str) -> List[str]:
    """The fields of a file /proc/PID/stat from the state on (proc(5) counts it as the third)."""
    return stat.rpartition(")")[2].split()


def seconds_of(fields: Sequence[str]) -> float:
    """The seconds of processor time of a process and of those that it waited for."""
    return sum(int(it) for it in fields[11:15]) / TICKS


def look(parent: int, booted: float, now: float) -> List[Taken]:
    """What the processes of the prover that a process has started have taken so far."""
    found = []
    for entry in PROC.iterdir():
        if not entry.name.isdigit():
            continue
        try:
            fields = fields_of((entry / "stat").read_text(errors="replace"))
            if int(fields[1]) != parent:
                continue
            words = (entry / "cmdline").read_bytes().decode(errors="replace").split("\0")
            what = kind_of(words, os.readlink(entry / "cwd"))
        except OSError:
            # It has ended.
            continue
        if what:
            began = booted + int(fields[19]) / TICKS
            found.append(Taken(int(entry.name), round(began, 2), *what, seconds_of(fields), round(now - began, 1)))
    return found


def gate_at(folder: pathlib.Path) -> Optional[int]:
    """The process of the `rt ci` that runs in a checkout, if one does."""
    for entry in PROC.iterdir():
        if not entry.name.isdigit():
            continue
        try:
            words = (entry / "cmdline").read_bytes().decode(errors="replace").split("\0")
            is_there = os.readlink(entry / "cwd") == str(folder)
        except OSError:
            continue
        if is_there and any(os.path.basename(one) == "rt" and two == "ci" for one, two in zip(words, words[1:])):
            return int(entry.name)
    return None


def said_by(words: Sequence[str], folder: pathlib.Path) -> str:
    try:
        return subprocess.run(words, cwd=folder, capture_output=True, text=True, check=False).stdout.strip()
    except OSError:
        return ""


def machine(folder: pathlib.Path, began: float) -> Dict[str, object]:
    """The first line of a record."""
    model = re.search(r"^model name\s*:\s*(.*)$", (PROC / "cpuinfo").read_text(), re.M)
    memory = re.search(r"^MemTotal:\s*(\d+)", (PROC / "meminfo").read_text(), re.M)
    return {
        "machine": model.group(1) if model else "",
        "processors": os.cpu_count(),
        "memory_gb": round(int(memory.group(1)) / 1e6) if memory else 0,
        "commit": said_by(["git", "rev-parse", "--short=8", "HEAD"], folder),
        "kit": said_by(["rt", "version"], folder).split(" ")[0],
        "began": round(began, 2),
    }


def watch(record: IO[str], folder: pathlib.Path, patience: float) -> None:
    """Writes what the run in a checkout takes, from now to its end; waits for it to begin, so many seconds at most."""
    gate, until = gate_at(folder), time.time() + patience
    while gate is None:
        if time.time() >= until:
            return
        time.sleep(LOOK)
        gate = gate_at(folder)
    booted = time.time() - float((PROC / "uptime").read_text().split()[0])
    try:
        began = booted + int(fields_of((PROC / str(gate) / "stat").read_text())[19]) / TICKS
    except OSError:
        return
    print(json.dumps(machine(folder, began)), file=record, flush=True)
    last: Dict[Tuple[int, float], Taken] = {}
    written: Dict[Tuple[int, float], float] = {}
    while (PROC / str(gate)).exists():
        now = time.time()
        running = {(it.pid, it.began): it for it in look(gate, booted, now)}
        ended = [it for key, it in last.items() if key not in running]
        due = [it for key, it in running.items() if now - written.get(key, 0) >= WRITE]
        for it in ended + due:
            written[it.pid, it.began] = now
            print(json.dumps(it._asdict()), file=record)
        record.flush()
        last = running
        time.sleep(LOOK)
    for it in last.values():
        print(json.dumps(it._asdict()), file=record)


def read(lines: Iterable[str]) -> Tuple[Dict[str, object], List[Taken]]:
    """The first line of a record, and what each process took by its last line."""
    head: Dict[str, object] = {}
    last: Dict[Tuple[int, float], Taken] = {}
    for line in lines:
        found = json.loads(line)
        if "machine" in found:
            head = head or found
        else:
            taken = Taken(**found)
            last[taken.pid, taken.began] = taken
    return head, list(last.values())


class Row(NamedTuple):
    """A row of the table: processor seconds by kind, and the seconds on the clock from first to last."""

    crate: str
    processor: Dict[str, float]
    clock: float

    def all(self) -> float:
        return sum(self.processor.values())


def rows_of(taken: Iterable[Taken]) -> List[Row]:
    """A row for each crate, the dearest first."""
    by_crate: Dict[str, List[Taken]] = collections.defaultdict(list)
    for it in taken:
        by_crate[it.crate].append(it)
    rows = []
    for crate, its in by_crate.items():
        processor = {kind: sum(it.processor for it in its if it.kind == kind) for kind in KINDS}
        clock = max(it.began + it.clock for it in its) - min(it.began for it in its)
        rows.append(Row(crate, processor, clock))
    return sorted(rows, key=lambda it: (-it.all(), it.crate))


def proved_in(taken: Iterable[Taken]) -> Dict[str, float]:
    """The seconds on the clock of the longest process of each crate's proof, or of its tests where those took longer."""
    found: Dict[str, float] = {}
    for it in taken:
        if it.kind in (PROOF, TESTS):
            found[it.crate] = max(found.get(it.crate, 0.0), it.clock)
    return found


def chain_of(seconds: Dict[str, float], uses: Dict[str, List[str]]) -> List[str]:
    """The longest chain of crates of which each uses the one before, from the first on."""
    best: Dict[str, Tuple[float, List[str]]] = {}

    def longest(crate: str) -> Tuple[float, List[str]]:
        if crate not in best:
            below = max((longest(it) for it in uses[crate] if it in uses), default=(0.0, []), key=lambda it: it[0])
            best[crate] = (below[0] + seconds.get(crate, 0.0), below[1] + [crate])
        return best[crate]

    return max((longest(it) for it in uses), default=(0.0, []), key=lambda it: it[0])[1]


def minutes(seconds: float) -> str:
    return "%.1f" % (seconds / 60) if seconds else ""


def line_of(name: str, rows: Sequence[Row], clock: str) -> str:
    """A line of the table: the sums of the rows by kind, and their sum."""
    sums = [sum(it.processor[kind] for it in rows) for kind in KINDS]
    cells = [name, *map(minutes, sums), minutes(sum(sums)), clock]
    return "| %s |" % " | ".join(cells)


class Told(NamedTuple):
    """What a run printed of crates: those whose proofs it took from an earlier run, and those that it did not prove."""

    kept: List[str] = []
    failed: List[str] = []


def told_by(log: str) -> Told:
    kept = re.findall(r"^rt: (\w+) is kept: ", log, re.M)
    failed = re.findall(r"^rt: (\w+)(?:: its tests are)? NOT PROVED", log, re.M)
    return Told(sorted(set(kept)), sorted(set(failed)))


def table(head: Dict[str, object], taken: Sequence[Taken], uses: Dict[str, List[str]], told: Told, least: float) -> List[str]:
    """The lines of the table, and those that say what it is of."""
    rows = rows_of(taken)
    chain = chain_of(proved_in(taken), uses)
    shown = [it for it in rows if it.all() >= 60 * least or it.crate in chain]
    rest = [it for it in rows if it not in shown]
    ended = max((it.began + it.clock for it in taken), default=0.0)
    lines = ["| Crate | Proof | Tests | Wrong bodies | Code | All | Clock |", "|---|---|---|---|---|---|---|"]
    for it in shown:
        lines.append(line_of(it.crate + " *" * (it.crate in chain), [it], minutes(it.clock)))
    if rest:
        lines.append(line_of("%d others" % len(rest), rest, ""))
    lines.append(line_of("the chain (*)", [it for it in rows if it.crate in chain], minutes(sum(proved_in(taken).get(it, 0.0) for it in chain))))
    lines.append(line_of("all", rows, minutes(ended - float(str(head.get("began", ended))))))
    lines += ["", "Chain: %s." % ", ".join(chain)]
    day = time.strftime("%Y-%m-%d", time.gmtime(float(str(head.get("began", 0)))))
    lines.append("Minutes of %s; %s, %s processors, %s GB, commit %s, %s." % (day, *(head.get(it, "?") for it in ("machine", "processors", "memory_gb", "commit", "kit"))))
    lacking = sorted(set(uses) - {it.crate for it in rows} - set(told.kept) - set(told.failed))
    for what, crates in (("Kept from an earlier run", told.kept), ("Not proved", told.failed), ("Not measured", lacking)):
        if crates:
            lines.append("%s: %s." % (what, ", ".join(crates)))
    return lines


def main() -> int:
    parser = argparse.ArgumentParser(description="Measures what a run of rt ci takes, crate by crate.")
    parser.add_argument("record", type=pathlib.Path)
    parser.add_argument("--watch", action="store_true", help="write the record of the run that goes on")
    parser.add_argument("--at", type=pathlib.Path, default=ROOT, help="the checkout of that run")
    parser.add_argument("--log", type=pathlib.Path, help="what the run printed")
    parser.add_argument("--least", type=float, default=0.0, help="processor minutes of the least row")
    args = parser.parse_args()
    if args.watch:
        with args.record.open("w", encoding="utf-8") as record:
            watch(record, args.at.resolve(), PATIENCE)
        return 0
    with args.record.open(encoding="utf-8") as lines:
        head, taken = read(lines)
    uses = build.read_crates((ROOT / "crates.txt").read_text(encoding="utf-8"))
    told = told_by(args.log.read_text(encoding="utf-8", errors="replace")) if args.log else Told()
    print("\n".join(table(head, taken, uses, told, args.least)))
    return 0


if __name__ == "__main__":
    sys.exit(main())
