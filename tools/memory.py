#!/usr/bin/env python3
"""Lists the places where want of memory is told of something else than an allocation that failed.

usage: memory.py [--check]

A place is where a body in crates/*/src, but for crates of tests, writes OutOfMemory, Memory or AllocError as a value, or calls
what makes one (MAKERS). It tells of an allocation
- in an arm, a `let .. else` or an `is_err()` over a call that can fail for want of memory alone, as the types of the
  functions of that name say, in the crates that the caller's crate stands on, or as one of the library (LIBRARY);
- in an arm that says want of memory itself, and nothing besides, in an `impl From<AllocError>`, or where `is_memory()` or a comparison with OutOfMemory says so.

Every other place stands in docs/DECISIONS.md between two marker lines, with the reason, a row for each function. Without
--check the places are written to standard output, and with it the status is 1 where they are not those of the document.
"""
import argparse
import collections
import pathlib
import re
import sys

import build

TOP = pathlib.Path(__file__).resolve().parent.parent
DOCUMENT = TOP / "docs" / "DECISIONS.md"
BEGIN = "<!-- want of memory: tools/memory.py compares these lines -->"
END = "<!-- want of memory end -->"

# Calls of the library and of ported crates that can fail for want of memory alone, and its types whose `new` is such a call.
LIBRARY = {"append", "collect", "extend_from_slice", "format", "from_str", "insert_full", "push", "push_str", "reserve", "to_vec", "try_clone", "vec", "with_capacity"}
OWNERS = {"Box", "List", "String", "Text", "Vec"}

# How the names of crates of tests end.
TESTS = ("_vectors", "alloc_calls")

# Errors that say nothing but want of memory. A push gives back what was handed in, where there is no memory for it.
ALONE = {"AllocError"}
GIVEN_BACK = {"push", "insert_full"}

# Functions that make such an error for their callers.
MAKERS = ("starved", "out_of_memory")


def stop(text):
    sys.exit("memory.py: " + text)


def blanked(text):
    """The same text with spaces for comments, strings and characters, so that brackets balance and lines stay."""
    out = list(text)
    pattern = re.compile(r'//[^\n]*|b?r(#*)".*?"\1|b?"(?:\\.|[^"\\])*"|b?\'(?:\\[^\n]{1,10}?|[^\\\n])\'', re.S)
    for it in pattern.finditer(text):
        for k in range(it.start(), it.end()):
            if text[k] != "\n":
                out[k] = " "
    return "".join(out)


def closing(text, start):
    """Where the bracket that opens at `start` closes."""
    depth = 0
    for i in range(start, len(text)):
        if text[i] in "([{":
            depth += 1
        elif text[i] in ")]}":
            depth -= 1
            if depth == 0:
                return i
    return len(text) - 1


def bodies_alone(text):
    """The same text with spaces for clauses and other ghost items."""
    out = text
    for pattern in (r"\b(?:requires|ensures)\b[^{;\n]*\{", r"\bghost\s+(?!use\b)[^{};]*[:=][^{;]*\{", r"#\[[^\]]*\]"):
        while True:
            it = re.search(pattern, out)
            if not it:
                break
            end = closing(out, it.end() - 1) if pattern.endswith(r"\{") else it.end() - 1
            out = out[: it.start()] + re.sub(r"[^\n]", " ", out[it.start() : end + 1]) + out[end + 1 :]
    return re.sub(r"\bghost\s+use\b[^;]*;|\buse\s[^;]*;", lambda m: re.sub(r"[^\n]", " ", m.group()), out)


Function = collections.namedtuple("Function", "crate owner has_self error")
IMPL = re.compile(r"\bimpl\b(?:[^{};]*\bfor\b)?[^{};]*?(\w+)(?:<[^{};]*>)?\s*(?:\bwhere\b[^{};]*)?\{")


def answers(sources):
    """The functions by name, each with its crate, the type that it is declared for, and its error."""
    found = collections.defaultdict(list)
    for file, text in sources.items():
        blocks = [(it.start(), closing(text, it.end() - 1), it.group(1)) for it in IMPL.finditer(text)]
        for it in re.finditer(r"\bfn\s+(\w+)\s*(?:<[^(]*>)?\s*\(", text):
            end = closing(text, it.end() - 1)
            said = re.match(r"\s*->\s*(.*?)(?=\{|;|\bwhere\b)", text[end + 1 :], re.S)
            owner = next((name for start, stop, name in blocks if start < it.start() < stop), None)
            has_self = bool(re.match(r"\s*(?:&\s*)?(?:mut\s+)?self\b", text[it.end() : end]))
            error = error_of(" ".join(said.group(1).split())) if said else None
            found[it.group(1)].append(Function(crate_of(file), owner, has_self, error))
    return found


def crate_of(file):
    return file.split("/")[0]


def error_of(answer):
    """The error in the type of an answer; None where it is no Result."""
    it = re.match(r"(?:\w+::)*Result<(.*)>$", answer)
    if not it:
        return None
    depth, parts = 0, [""]
    for c in it.group(1):
        depth += c in "<(["
        depth -= c in ">)]"
        if c == "," and depth == 0:
            parts.append("")
        else:
            parts[-1] += c
    return parts[1].strip() if len(parts) > 1 else "?"


def called(expression):
    """The function that an expression calls last, and what stands before it: a dot, a type, or nothing."""
    text = expression.strip().rstrip("?").strip()
    if re.match(r"(?:format|vec)!", text):
        return text.split("!")[0], ""
    depth = 0
    for i in range(len(text) - 1, -1, -1):
        depth += text[i] in ")]}"
        depth -= text[i] in "([{"
        if depth == 0:
            it = re.search(r"(?:(\.)|(\w+)\s*(?:::<[^()]*>)?\s*::)?\s*(\w+)\s*(?:::<[^()]*>)?\s*$", text[:i])
            return (it.group(3), it.group(1) or it.group(2) or "") if it and text.endswith(")") else (None, "")
    return None, ""


def fits(function, before):
    """Whether a function can be the one that is called with this before its name."""
    if before == ".":
        return function.has_self
    return function.owner == before if before[:1].isupper() else function.owner is None


def fails_alone(expression, function, crate, functions):
    """Whether the call, which this function of the crate makes, can fail for want of memory alone."""
    name, before = called(expression)
    if name in GIVEN_BACK or (name == "new" and before in OWNERS):
        return True
    those = [it for it in functions.get(name, []) if fits(it, before)]
    if not those:
        return name in LIBRARY
    others = [it for it in those if it.crate != crate or name != function]
    errors = {it.error for it in [it for it in others if it.crate == crate] or others}
    return errors <= ALONE | {None} and bool(errors & ALONE)


def opening(text, at):
    """The bracket around this place, or -1."""
    depth = 0
    for i in range(at - 1, -1, -1):
        if text[i] in ")]}":
            depth += 1
        elif text[i] in "([{":
            if depth == 0:
                return i
            depth -= 1
    return -1


ENDED = "\1"


def flattened(text):
    """The same text with spaces for what stands in brackets, where each block ends in a mark of its own."""
    pattern = re.compile(r"\([^(){}]*\)|\[[^\[\](){}]*\]|\{[^{}()]*\}")
    while pattern.search(text):
        text = pattern.sub(lambda m: " " * (len(m.group()) - 1) + (ENDED if m.group()[0] == "{" else " "), text)
    return text


def arm_of(text, at):
    """The pattern of the arm that this place is the value of, and where the match opens; None where it is in no arm."""
    while True:
        around = opening(text, at)
        if around < 0:
            return None
        between = text[around + 1 : at]
        flat = flattened(between)
        if text[around] == "{" and "=>" in flat:
            arrow = flat.rindex("=>")
            if not re.search(r"[,;]", flat[arrow:]):
                start = max(flat.rfind(c, 0, arrow) for c in (",", ENDED))
                return between[start + 1 : arrow].strip(), around
        if text[around] == "{" and re.search(r"\bfn\b[^{}]*$", text[:around]):
            return None
        head = text[:around].rstrip()
        if text[around] == "{" and not head.endswith("=>") and not re.search(r"(?:LocatedError|Err|Some|=>\s*\w+)\s*$", head):
            if not re.search(r"\bmatch\b[^{};]*$", head):
                return None
        at = around


def statement(text, at):
    """What stands before this place, from the start of the statement or of the condition of the block around it."""
    around = opening(text, at)
    while around >= 0 and text[around] != "{":
        around = opening(text, around)
    if around < 0:
        return ""
    outer = opening(text, around)
    flat = flattened(text[outer + 1 : around])
    start = outer + 1 + max(flat.rfind(c) for c in (";", ENDED))
    return text[start + 1 : around].strip()


def tells_of_memory(text, at, crate, functions):
    """Whether the value here is told of an allocation that failed."""
    function = function_at(text, at)
    for it in re.finditer(r"\bimpl\b[^{};]*\bFrom<(?:AllocError|AllocFailed<\w+>)>[^{};]*\{", text):
        if it.start() < at < closing(text, it.end() - 1):
            return True
    before = statement(text, at)
    for pattern in (r"let\s+Ok\([\w(), ]*\)\s*=\s*(.*)\belse$", r"if\s+(.*)\.is_err\(\)$"):
        it = re.match(pattern, before, re.S)
        if it:
            return fails_alone(it.group(1), function, crate, functions)
    if re.match(r"if\s+(?:\w+\.is_memory\(\)|[\w.()]+\s*==\s*[\w:]+::OutOfMemory)$", before):
        return True
    arm = arm_of(text, at)
    if arm is None:
        return False
    pattern, around = arm
    if all(re.search(r"\bOutOfMemory\b|\bAllocError\b|\bMemory\b", it) for it in pattern.split("|")):
        return True
    value = text[text.rindex("match", 0, around) + len("match") : around]
    return bool(re.match(r"Err\(\s*_\w*\s*\)$", pattern)) and fails_alone(value, function, crate, functions)


def is_value(text, start, end):
    """Whether the word is a value: no type, no pattern, and no variant that an enum declares."""
    before, after = text[:start].rstrip(), text[end:].lstrip()
    if re.match(r"[\s)]*(?:\|[^{};=]*)?=>|[\s)]*\bif\b", text[end:]) or re.search(r"[=!]=\s*[\w:]*$", text[:start]):
        return False
    if text[start:end] in MAKERS:
        return after.startswith("(") and not re.search(r"\bfn$", before)
    if text[start:end] == "AllocError":
        return bool(re.search(r"(?:\bErr\(|=>|\breturn)$", before))
    return before.endswith("::") and not re.match(r"\s*=[^=>]", text[end:])


def function_at(text, at):
    """The name of the function that this place stands in."""
    names = [it.group(1) for it in re.finditer(r"\bfn\s+(\w+)", text[:at])]
    return names[-1] if names else "-"


def standing(top):
    """Each crate of crates.txt with those that it stands on and itself; no crate where there is no such list."""
    file = top / "crates.txt"
    crates = build.read_crates(file.read_text(encoding="utf-8")) if file.exists() else {}
    return {name: set(build.below(name, crates)) for name in crates}


def places(top):
    """The places, as (file, function): how many."""
    below = standing(top)
    sources = {}
    for path in sorted(top.glob("crates/*/src/**/*.rt")):
        file = path.relative_to(top / "crates").as_posix()
        if not crate_of(file).endswith(TESTS):
            sources[file] = bodies_alone(blanked(path.read_text(encoding="utf-8")))
    functions = answers(sources)
    found = collections.Counter()
    for file, text in sources.items():
        near = below.get(crate_of(file))
        seen = functions if near is None else {name: [it for it in those if it.crate in near] for name, those in functions.items()}
        for it in re.finditer(r"\b(?:OutOfMemory|AllocError|Memory|%s)\b" % "|".join(MAKERS), text):
            function = function_at(text, it.start())
            told = tells_of_memory(text, it.start(), crate_of(file), seen)
            if function not in MAKERS and is_value(text, *it.span()) and not told:
                found[file, function] += 1
    return found


def listed():
    """The places of the document."""
    text = DOCUMENT.read_text(encoding="utf-8")
    if text.count(BEGIN + "\n") != 1 or text.count(END + "\n") != 1:
        stop("%s has not each of the two marker lines once" % DOCUMENT.relative_to(TOP))
    rows = text.split(BEGIN + "\n")[1].split(END + "\n")[0].splitlines()
    found = collections.Counter()
    for row in rows:
        it = re.match(r"\| `([^`]+)` \| `(\w+)` \| (\d+) \| \S", row)
        if it:
            found[it.group(1), it.group(2)] += int(it.group(3))
    return found


def main():
    parser = argparse.ArgumentParser(prog="memory.py", description=__doc__.split("\n")[0])
    parser.add_argument("--check", action="store_true", help="fail where the places are not those of docs/DECISIONS.md")
    words = parser.parse_args()
    found = places(TOP)
    if not words.check:
        for (file, function), many in sorted(found.items()):
            print("| `%s` | `%s` | %d |" % (file, function, many))
        return
    said = listed()
    wrong = ["%s: %s: %d, and %d in docs/DECISIONS.md" % (*key, found[key], said[key]) for key in sorted({*found, *said}) if found[key] != said[key]]
    if wrong:
        stop("want of memory is told of something else than an allocation, and not as docs/DECISIONS.md lists it:\n" + "\n".join(wrong))


if __name__ == "__main__":
    main()
