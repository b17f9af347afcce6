"""The command `compile`, which is also meant where no command is named: compiles files, and writes their listings."""
from __future__ import annotations

import os
import signal
import sys
from typing import IO, List, Optional

from .. import ends, program, quick, refusals, rows, sources
from ..errors import DONE, MEMORY, WORDS, WRITE, Error, Failed, Refused, WrongWords
from ..options import Command, Option, parse

MODES = ("exec", "eval", "single", "block")
LEVELS = ("0", "1", "2")

MODE = Option(("-m", "--mode"), "what a file holds (exec): exec, a file that is run; eval, one expression; single, what is entered at a prompt; block, a file whose last value is given", "MODE", MODES, "exec")
LEVEL = Option(("-O", "--level"), "the level (0): 1 without assertions, and __debug__ is False; 2 without docstrings too", "LEVEL", LEVELS, "0")

COMMAND = Command(
    "compile",
    "FILE.. | -",
    "Compiles Python files and writes the listings of their code; - is standard input.",
    (
        MODE,
        LEVEL,
        Option(("-o", "--output"), "write the listings to FILE once all files have compiled; - is standard output", "FILE"),
        Option(("--rows",), "the files hold trees as rows (docs/ROWS.md) and no Python"),
        Option(("--json",), "write each code as an object of JSON in one line, and tell each refusal so on standard error"),
        Option(("--run",), "compile the file behind it and run it, as `run` does; what follows the file is its own"),
        Option(("--try",), "compile by a program that is not proved: cargo builds it once, or rt for each file where there is no cargo"),
        Option(("--prove",), "prove and build the program, where that was not done, before anything else"),
        Option(("--explain",), "explain a kind of refusal, as R301, and do nothing else", "CODE"),
        Option(("--version",), "tell the version, and whether the program is known to be proved, and do nothing else"),
    ),
    "What is refused is told as FILE:ROW:COL: TEXT, with the line of the source, a mark at the column, and what kind it is.",
)


def main(words: List[str]) -> int:
    """Compiles the files that the words name. The highest status of the files."""
    given = parse(COMMAND, words)
    if given.prove:
        return prove([it for it in words if it != "--prove"])
    if given.version:
        from .. import version

        ends.write(version.text() + "\n")
        return DONE
    if given.explain is not None:
        from .. import explanations

        ends.write(explanations.explained(given.explain))
        return DONE
    if not given.files:
        raise WrongWords("no file is named")
    given.program = tried() if getattr(given, "try") else find_or_look(given)
    if given.output in (None, "-"):
        return compile_all(given, None)
    check_output(given.output, given.files)
    return compile_into(given)


def tried() -> Optional[str]:
    """A program that is not proved: that which cargo builds. None, for `rt try`, where there is no cargo."""
    found = quick.found() or (quick.build() if quick.is_possible() else None)
    if found is not None:
        quick.tell()
    else:
        ends.say("pyc: --try: nothing is proved of this program, which is built anew for each file and checks itself while it runs\n")
    return found


def prove(words: List[str]) -> int:
    """Proves and builds the program where it is not there, and then does what the other words say, or tells the version."""
    words = words or ["--version"]
    if program.is_checkout() and not os.access(program.PROGRAM, os.X_OK):
        builder, starter = (os.path.join(program.ROOT, *it) for it in (("tools", "build.py"), ("pyc.sh",)))
        os.execv(sys.executable, [sys.executable, builder, "--then", starter, "pyc", *words])
    from .. import cli

    return cli.called(words)


def words_of_run(words: List[str]) -> Optional[List[str]]:
    """The words of `run`, where the options before the first file hold --run; else None."""
    given = parse(COMMAND._replace(is_first_last=True), words)
    if not given.run:
        return None
    if given.output or given.rows or given.json or given.mode != "exec" or getattr(given, "try"):
        raise WrongWords("--run takes no option but -O")
    if not given.files:
        raise WrongWords("--run wants a file after it")
    return ["--level", given.level, "--", *given.files]


def find_or_look(given) -> str:
    """The program. Where it is not there, it is asked for only where one of the files has rows."""
    try:
        return program.find()
    except Error:
        if not given.rows and not look(given):
            raise SystemExit(given.highest) from None
        raise


def look(given) -> bool:
    """Whether one of the files has rows, as standard input may have. What keeps the others from it is told where none has."""
    faults, given.highest = [], DONE
    for file in given.files:
        try:
            if file == "-" or sources.rows_of(sources.name_of(file), sources.bytes_of(file), given.mode):
                return True
        except (Failed, Error) as fault:
            faults.append(fault)
            given.highest = max(given.highest, fault.status)
    for fault in faults:
        tell(fault, given)
    return False


def check_output(output: str, files: List[str]) -> None:
    """Sees that the output is none of the files, which would be lost."""
    for file in files:
        try:
            is_same = file != "-" and os.path.samefile(output, file)
        except OSError:
            continue
        if is_same:
            raise WrongWords("-o %s is a file that is compiled, and would be overwritten" % output)


def compile_into(given) -> int:
    """Compiles the files into the file that -o names, which is written once all have compiled."""
    # Here alone, since these take long to import.
    import shutil
    import tempfile

    from .. import files

    with tempfile.TemporaryFile() as listings:
        status = compile_all(given, listings)
        if status:
            return status
        listings.seek(0)
        try:
            with files.replacing(given.output) as out:
                shutil.copyfileobj(listings, out)
        except OSError as error:
            ends.say("%s: %s\n" % (refusals.shown(given.output), error.strerror))
            return WRITE
    return DONE


def compile_all(given, output: Optional[IO[bytes]]) -> int:
    """Compiles the files one after the other. The highest status; none is compiled behind a write that failed."""
    highest = DONE
    for file in given.files:
        try:
            compile_file(file, given, output)
        except (Failed, Error) as fault:
            tell(fault, given)
            highest = max(highest, fault.status)
            if fault.status == WRITE:
                break
        except MemoryError:
            highest = max(highest, MEMORY)
    return highest


def tell(fault, given) -> None:
    """Tells what keeps a file from being compiled."""
    if not isinstance(fault, Refused):
        ends.say(str(fault) if isinstance(fault, Failed) else "%s\n" % fault)
    elif given.json:
        import json

        ends.say(json.dumps(refusals.as_object(fault.refusal), ensure_ascii=False) + "\n")
    else:
        ends.say(refusals.told(fault.refusal, ends.width(), ends.is_coloured()))


def compile_file(file: str, given, output: Optional[IO[bytes]]) -> None:
    """Compiles a file into the output, or onto standard output where that is None. Raises Failed and Error."""
    name = sources.text_of_name(sources.name_of(file))
    if name is None:
        raise Failed("%s: the name is not UTF-8\n" % refusals.shown(os.fsencode(file).decode("utf-8", "backslashreplace")), WORDS)
    data = sources.bytes_of(file)
    made = data if given.rows else sources.rows_of(name, data, given.mode)
    words = [given.mode, given.level, name]
    if given.json:
        import subprocess

        status, out, said = program.call(given.program, ["pack", *words], made, subprocess.PIPE)
    else:
        status, out, said = program.call(given.program, words, made, output)
    if status in (WRITE, -signal.SIGPIPE):
        raise Failed("%s: the listing could not be written\n" % ("standard output" if output is None else "the file in which it is kept"), WRITE)
    if status:
        program.check(status, said, name, made, None if given.rows else rows.lines_of(data), not given.rows)
    if given.json:
        write_json(out, name, output)


def write_json(data: bytes, name: str, output: Optional[IO[bytes]]) -> None:
    """Writes a file of code as JSON."""
    from .. import codefile, codejson

    try:
        text = codejson.as_text(codefile.read(data)) + "\n"
    except ValueError as error:
        raise Failed("%s: %s\n" % (name, error), WORDS) from None
    if output is None:
        ends.write(text)
    else:
        output.write(text.encode("utf-8"))
