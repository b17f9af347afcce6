#!/usr/bin/env python3
"""Proves the crates below one crate, side by side as crates.txt allows, the longest chain first.

usage: build.py [--lanes N] [--list | --stamp] [--then STARTER] CRATE [WORD..]

A crate is proved (`rt lib`) when those that it uses are. As many run at once as memory and processors allow: one for every
6 GB of memory, and at most one for each processor. rt lets one run at a time into the folder of a crate, and a run is in
those of all crates below its own; so each lane has a copy of the sources, in out/ of CRATE, and what it proves is handed
to the other copies and to the checkout. What was proved before is taken as it is. The line of each crate,
`AT of COUNT: NAME`, goes to standard error; once a minute a line says what is proved, what runs, and about how long the
rest takes. What rt writes goes to out/build.log of CRATE. Another call waits until this one is done.

CRATE itself is left to the caller. With --then it is the program, and is built too; a stamp with its sum and that of its
sources is put beside it, and `sh STARTER WORD..` takes the place of this process. With --stamp nothing is proved: the
program that rt has just built gets its stamp.

The status is 1 where a crate is not proved, whose lines are shown, and with --then 127; it is 130 where the call was
interrupted, and 143 or 129 where it was ended by TERM or HUP. Then all that it has started is ended.
"""
import argparse
import concurrent.futures
import contextlib
import fcntl
import os
import pathlib
import platform
import shutil
import signal
import subprocess
import sys
import threading
import time

if sys.version_info < (3, 8):
    sys.exit("build.py: Python 3.8 or later is wanted, and this is %d.%d" % sys.version_info[:2])

ROOT = pathlib.Path(__file__).resolve().parent.parent
sys.path.insert(0, str(ROOT / "python"))
from pyc import stamp
from pyc.stamp import below, read_crates

# The memory that a proof is given, in bytes.
LANE = 6 * 10**9

# What a line of code takes to prove, in lines of a definition or a proof.
CODE = 3

# How long all took from nothing, in seconds, and on how many lanes.
FROM_NOTHING, ITS_LANES = 46 * 60, 4

# How often it is said how far the build is, in seconds, and how short a proof is that was there before.
EACH, SHORT = 60, 3

# How long what is ended has to end, in seconds.
GRACE = 3


def say(text):
    """A line on standard error."""
    print("pyc.sh: " + text, file=sys.stderr, flush=True)


def lines_of(folder):
    """How much there is to prove in the folder of a crate."""
    count = 1
    for suffix, weight in ((".rt", CODE), (".antt", 1)):
        for file in folder.rglob("*" + suffix):
            if "out" not in file.relative_to(folder).parts:
                count += weight * file.read_bytes().count(b"\n")
    return count


def chains(names, crates, weights):
    """For each crate the weight of the longest chain that begins with it and goes on with crates that use it."""
    longest = {name: weights[name] for name in names}
    for name in reversed(names):
        for used in crates[name]:
            longest[used] = max(longest[used], weights[used] + longest[name])
    return longest


def lanes_here():
    """How many proofs this machine runs at once."""
    try:
        memory = os.sysconf("SC_PAGE_SIZE") * os.sysconf("SC_PHYS_PAGES")
    except (ValueError, OSError):
        memory = LANE
    return max(1, min(os.cpu_count() or 1, memory // LANE))


def machine():
    """What this machine is, in a few words."""
    memory = os.sysconf("SC_PAGE_SIZE") * os.sysconf("SC_PHYS_PAGES") / 10**9
    return "%s %s, %d processors, %d GB" % (platform.system(), platform.machine(), os.cpu_count() or 1, memory)


def clock(seconds):
    """A time as minutes and seconds."""
    return "%d:%02d" % divmod(int(seconds), 60)


class Runs:
    """The runs of rt that are under way, each in a group of its own, so that all that it starts can be ended."""

    def __init__(self):
        self.lock = threading.Lock()
        self.started = set()
        self.is_over = False

    def run(self, words, folder, given=subprocess.DEVNULL):
        """The status of a run of rt in a folder, and what it wrote."""
        with self.lock:
            if self.is_over:
                return 1, ""
            pipes = {"stdin": given, "stdout": subprocess.PIPE, "stderr": subprocess.STDOUT}
            it = subprocess.Popen(["rt", *words], cwd=folder, start_new_session=True, **pipes)
            self.started.add(it)
        said = it.communicate()[0].decode("utf-8", "replace")
        with self.lock:
            self.started.discard(it)
        return it.returncode, said

    def end(self):
        """Ends all runs, and begins no other."""
        with self.lock:
            self.is_over = True
            waiting = list(self.started)
        for number in (signal.SIGTERM, signal.SIGKILL):
            for it in waiting:
                with contextlib.suppress(ProcessLookupError, PermissionError):
                    os.killpg(it.pid, number)
            end = time.monotonic() + GRACE
            while time.monotonic() < end and any(is_group(it.pid) for it in waiting):
                time.sleep(0.05)


def is_group(number):
    """Whether a process of this group is there."""
    try:
        os.killpg(number, 0)
    except (ProcessLookupError, PermissionError):
        return False
    return True


RUNS = Runs()


class Log:
    """The file in which stands what rt wrote."""

    def __init__(self, path):
        path.parent.mkdir(parents=True, exist_ok=True)
        self.file = open(path, "w", encoding="utf-8")
        self.lock = threading.Lock()

    def write(self, head, text):
        with self.lock:
            self.file.write("%s %s\n%s" % (time.strftime("%Y-%m-%d %H:%M:%S"), head, text))
            self.file.flush()


def link(one, other):
    """Gives a file a second name, or copies it where the disk is another one."""
    try:
        os.link(one, other)
    except OSError:
        shutil.copy2(one, other)


class Copies:
    """Copies of what is proved, each for a lane of its own; one lane alone works in the checkout."""

    def __init__(self, names, lanes, log):
        self.place = ROOT / "crates" / names[-1] / "out" / ("lanes-%d" % os.getpid())
        self.roots = [ROOT] if lanes == 1 else [self.place / str(lane) for lane in range(lanes)]
        self.names = names
        self.free = list(self.roots)
        self.log = log

    def __enter__(self):
        if self.roots != [ROOT]:
            self.clear()
            say("copying the sources for %d lanes .." % len(self.roots))
            begin = time.monotonic()
            try:
                for root in self.roots:
                    self.copy(root)
            except BaseException:
                self.__exit__()
                raise
            say("copied in %d seconds" % (time.monotonic() - begin))
        return self

    def clear(self):
        """Removes what calls that were killed have left."""
        for old in self.place.parent.glob("lanes-*"):
            if not pathlib.Path("/proc", old.name.partition("-")[2]).exists():
                shutil.rmtree(old, ignore_errors=True)

    def copy(self, root):
        """Copies the sources, with what is proved of them. rt wants the folder of each crate that is listed."""
        root.mkdir(parents=True)
        lines = (ROOT / "crates.txt").read_text(encoding="utf-8").splitlines(True)
        (root / "crates.txt").write_text("".join(it for it in lines if set(read_crates(it)) & set(self.names)), encoding="utf-8")
        if (ROOT / "HANDLES").exists():
            shutil.copy2(ROOT / "HANDLES", root)
        for name in self.names:
            own, its = ROOT / "crates" / name, root / "crates" / name
            its.mkdir(parents=True)
            for part in stamp.PARTS:
                if (own / part).exists():
                    shutil.copytree(own / part, its / part)
            self.give(name, ROOT, root)

    def __exit__(self, *ended):
        if self.roots != [ROOT]:
            shutil.rmtree(self.place, ignore_errors=True)

    def give(self, name, root, other):
        """Gives another checkout what is proved of a crate in one."""
        proved, its = root / "crates" / name / "out" / "rlib", other / "crates" / name / "out" / "rlib"
        if proved.exists():
            shutil.rmtree(its, ignore_errors=True)
            shutil.copytree(proved, its, copy_function=link)

    def prove(self, name, jobs):
        """Proves a crate in a copy that is free, and hands it on. Gives what was written where it is not proved, else None."""
        root = self.free.pop()
        try:
            status, said = RUNS.run(["lib"] + (["--jobs", str(jobs)] if jobs else []), root / "crates" / name)
            self.log.write("rt lib in %s ended with %d" % (name, status), said)
            for other in [ROOT, *self.roots]:
                if status == 0 and other != root:
                    self.give(name, root, other)
            self.keep(name, root)
            return said if status else None
        finally:
            self.free.append(root)

    def keep(self, name, root):
        """Leaves in the checkout what a proof can begin with next time, also where it is not whole."""
        begun, its = root / "crates" / name / "out" / "incremental", ROOT / "crates" / name / "out" / "incremental"
        if root != ROOT and begun.exists():
            shutil.rmtree(its, ignore_errors=True)
            its.parent.mkdir(exist_ok=True)
            os.replace(begun, its)


class Build:
    """Crates that wait, run and are proved."""

    def __init__(self, names, crates, lanes):
        self.crates = crates
        self.lanes = lanes
        self.names = names
        self.weights = {name: lines_of(ROOT / "crates" / name) for name in names}
        longest = chains(names, crates, self.weights)
        self.count = len(names)
        self.waiting = sorted(names[:-1], key=lambda name: -longest[name])
        self.proved = set()
        self.running = {}
        self.begun = {}
        self.started = 0
        # The seconds and the weight of what was proved here, without what was proved before.
        self.seconds, self.weight = 0.0, 0

    def ready(self):
        """The crates whose own crates are all proved, the one with the longest chain first."""
        return [name for name in self.waiting if self.proved.issuperset(self.crates[name])]

    def start(self, pool, copies):
        """Starts as many as the lanes take. A crate that runs alone has the jobs of all lanes."""
        ready = self.ready()
        while ready and len(self.running) < self.lanes:
            jobs = max(1, self.lanes // (len(self.running) + len(ready)))
            name = ready.pop(0)
            self.waiting.remove(name)
            self.started += 1
            say("%d of %d: %s" % (self.started, self.count, name))
            self.begun[name] = time.monotonic()
            # With one lane rt chooses the jobs, as it does by itself.
            self.running[pool.submit(copies.prove, name, jobs if self.lanes > 1 else 0)] = name

    def seconds_left(self):
        """About how long the rest takes, by how long the crates took that were proved here, once these are a tenth."""
        whole = sum(self.weights.values())
        rate = FROM_NOTHING * ITS_LANES / self.lanes / whole
        if self.weight * 10 > whole:
            rate = self.seconds / self.lanes / self.weight
        now = time.monotonic()
        # What runs is taken to be done as far as its time says.
        begun = sum(min((now - self.begun[name]) / (rate * self.lanes), self.weights[name]) for name in self.running.values())
        rest = sum(self.weights[name] for name in self.names if name not in self.proved)
        return max(0, rest - begun) * rate

    def tell(self):
        """Says how far the build is."""
        now = time.monotonic()
        running = ", ".join("%s (%s)" % (name, clock(now - self.begun[name])) for name in self.running.values())
        left = self.seconds_left()
        told = "less than a minute" if left < 60 else "about %d minutes" % round(left / 60)
        say("%d of %d proved, %d running: %s; %s left" % (len(self.proved), self.count, len(self.running), running, told))

    def done(self, name):
        """Notes that a crate is proved."""
        took = time.monotonic() - self.begun[name]
        self.proved.add(name)
        if took > SHORT:
            self.seconds += took
            self.weight += self.weights[name]

    def run(self, log):
        """Proves all. Whether all are proved; where one is not, those that run are waited for, and no other is begun."""
        done = True
        with Copies(self.names, self.lanes, log) as copies, concurrent.futures.ThreadPoolExecutor(self.lanes) as pool:
            try:
                told = time.monotonic()
                while True:
                    if done:
                        self.start(pool, copies)
                    if not self.running:
                        return done
                    ended = concurrent.futures.wait(self.running, EACH, return_when=concurrent.futures.FIRST_COMPLETED).done
                    for it in ended:
                        done = self.ended(it) and done
                    if time.monotonic() - told >= EACH:
                        told = time.monotonic()
                        self.tell()
            except BaseException:
                RUNS.end()
                raise

    def ended(self, it):
        """Whether a run that has ended has proved its crate; what it wrote is shown where it has not."""
        name, said = self.running.pop(it), it.result()
        if said is None:
            self.done(name)
            return True
        print("%s\npyc.sh: %s is not proved" % (said.rstrip(), name), file=sys.stderr, flush=True)
        return False


@contextlib.contextmanager
def locked(path):
    """Holds the lock of a build; waits for another call that holds it, and says for whom."""
    path.parent.mkdir(parents=True, exist_ok=True)
    with open(path, "a+", encoding="ascii") as it:
        try:
            fcntl.flock(it, fcntl.LOCK_EX | fcntl.LOCK_NB)
        except OSError:
            it.seek(0)
            say("another call (pid %s) is building: waiting for it (^C leaves it alone)" % (it.read().strip() or "unknown"))
            fcntl.flock(it, fcntl.LOCK_EX)
        it.truncate(0)
        it.write("%d\n" % os.getpid())
        it.flush()
        yield


def kit():
    """The kit, as rt tells it."""
    try:
        said = subprocess.run(["rt", "version"], stdout=subprocess.PIPE, stderr=subprocess.DEVNULL).stdout
    except OSError:
        said = b""
    return " ".join(said.decode("utf-8", "replace").split()) or "an unknown kit"


def commit():
    """The commit of the checkout, or None."""
    try:
        ended = subprocess.run(["git", "-C", str(ROOT), "rev-parse", "--short", "HEAD"], stdout=subprocess.PIPE, stderr=subprocess.DEVNULL)
    except OSError:
        return None
    return ended.stdout.decode("ascii", "replace").strip() or None


def program_of(crate):
    """The program that rt builds of a crate."""
    return ROOT / "crates" / crate / "out" / crate


def put_stamp(crate, sources):
    """Puts a stamp beside the program, which rt has built of sources with this sum."""
    program = program_of(crate)
    stamp.write(str(program), stamp.Stamp(stamp.sum_of_file(str(program)), sources, kit(), commit()))


def build_program(crate, log):
    """Builds the program, whose crates are all proved, by a run over a file of the repository. Whether it is built."""
    program = program_of(crate)
    with open(ROOT / "examples" / "call.json", "rb") as rows:
        status, said = RUNS.run(["run", "--", "exec", "0", "m.py"], ROOT / "crates" / crate, rows)
    log.write("rt run in %s ended with %d" % (crate, status), said)
    if status or not os.access(program, os.X_OK):
        print(said.rstrip(), file=sys.stderr, flush=True)
        return False
    return True


def first_words(count, crate):
    """Says what a first call is going to do."""
    say("the program is not built yet: this call proves its %d crates and builds it, in %s/crates" % (count, ROOT))
    say("from nothing that took 46 minutes on a machine with 4 processors and 24 GB, and up to 11 GB of memory")
    say("it may be stopped: the next call goes on with what is proved; what rt says stands in crates/%s/out/build.log" % crate)
    say("sh pyc.sh --try FILE.py compiles at once, without proof")


def build_all(words, names, crates):
    """Proves the crates and builds the program. Whether that is done."""
    if os.access(program_of(words.crate), os.X_OK):
        return True
    if not shutil.which("rt"):
        say("the program is not built yet, and rt, which proves and builds it, is not on the path: install the Rattle kit")
        return False
    first_words(len(names), words.crate)
    with locked(ROOT / "crates" / words.crate / "out" / "lock"):
        if os.access(program_of(words.crate), os.X_OK):
            return True
        begin, sources = time.monotonic(), stamp.sum_of_sources(str(ROOT), words.crate)
        log = Log(ROOT / "crates" / words.crate / "out" / "build.log")
        if not Build(names, crates, max(1, words.lanes)).run(log):
            return False
        say("%d of %d: %s" % (len(names), len(names), words.crate))
        if not build_program(words.crate, log):
            return False
        if stamp.sum_of_sources(str(ROOT), words.crate) == sources:
            put_stamp(words.crate, sources)
        took = time.monotonic() - begin
        say("proved and built in %d minutes %d seconds (%s)" % (took // 60, took % 60, machine()))
    return True


def prove_alone(words, names, crates):
    """Proves the crates below one. Whether that is done."""
    with locked(ROOT / "crates" / words.crate / "out" / "lock"):
        log = Log(ROOT / "crates" / words.crate / "out" / "build.log")
        return Build(names, crates, max(1, words.lanes)).run(log)


class Ended(BaseException):
    """A signal has ended this call."""


def end_by(number, frame):
    raise Ended(number)


def parser_of_words():
    parser = argparse.ArgumentParser(prog="build.py", description=__doc__.split("\n")[0])
    parser.add_argument("--lanes", type=int, metavar="N", default=lanes_here(), help="how many proofs run at once (here %(default)s)")
    parser.add_argument("--list", action="store_true", help="print the crates, those with the longest chains first, and prove nothing")
    parser.add_argument("--stamp", action="store_true", help="prove nothing: put a stamp beside the program that rt has just built")
    parser.add_argument("--then", metavar="STARTER", help="build the program of CRATE too, and go on with `sh STARTER WORD..`")
    parser.add_argument("crate", metavar="CRATE", help="the crate below which all is proved")
    parser.add_argument("words", metavar="WORD", nargs=argparse.REMAINDER, help="the words behind STARTER")
    return parser


def main():
    parser = parser_of_words()
    words = parser.parse_args()
    crates = read_crates((ROOT / "crates.txt").read_text(encoding="utf-8"))
    if words.crate not in crates:
        parser.error("crates.txt has no crate %s" % words.crate)
    names = below(words.crate, crates)
    if words.list:
        print("\n".join(Build(names, crates, max(1, words.lanes)).waiting))
        return 0
    if words.stamp:
        put_stamp(words.crate, stamp.sum_of_sources(str(ROOT), words.crate))
        return 0
    for number in (signal.SIGTERM, signal.SIGHUP):
        signal.signal(number, end_by)
    try:
        is_done = (build_all if words.then else prove_alone)(words, names, crates)
    except (KeyboardInterrupt, Ended) as ended:
        RUNS.end()
        return 128 + (ended.args[0] if isinstance(ended, Ended) else signal.SIGINT)
    if not words.then:
        return 0 if is_done else 1
    if not is_done:
        say("the program could not be built")
        return 127
    for number in (signal.SIGTERM, signal.SIGHUP):
        signal.signal(number, signal.SIG_DFL)
    os.execv("/bin/sh", ["sh", words.then, *words.words])


if __name__ == "__main__":
    sys.exit(main())
