#!/usr/bin/env python3
"""Writes crates/pyc_vectors/stdin and stdout: runs of the program over devices in memory, and what comes of them.

usage: run_cases.py [--python PYTHON] [--check]

The README of that crate tells what a line is. The listings and the reasons are those of tools/model, over the rows that
Python's parser gives, or that stand here; what the other commands write was worked out by hand, from the same model. The
places of what stands in an f-string are those of Python before 3.12, so this runs under an older one; PYTHON is one of 3.12
or later, which reads the sources that have type parameters. With --check nothing is written, and the status is 1 where the
files differ.
"""
import argparse
import pathlib
import subprocess
import sys
from typing import Iterator, Tuple

MODEL = str(pathlib.Path(__file__).resolve().parent / "model")
sys.path.insert(0, MODEL)
import case_files
import code_files
import compile_rows
from py2rows import rows_text

# A line of the input, and what is written in its place.
Case = Tuple[str, str]

# The rows of the expression `1`.
ONE = '[["int","1"],["Constant",1,1,0],["Expression",1]]'

# The rows of `def f(x): return lambda: x`.
CLOSURE = '[["Arg",1,7,"x",null],["ArgWithDefault",0,null],["Arguments",[],[1],null,[],null],["Arguments",[],[],null,[],null],["Name",1,26,"x"],["Lambda",1,18,3,4],["Return",1,11,5],["FunctionDef",1,1,"f",2,[6],[],null,[]],["Module",[7]]]'

# The rows of `def g(): y = z`.
UNBOUND = '[["Arguments",[],[],null,[],null],["Name",1,10,"y"],["Name",1,14,"z"],["Assign",1,10,[1],2],["FunctionDef",1,1,"g",0,[3],[],null,[]],["Module",[4]]]'

# The rows of `x = 1` and `def h(x): pass`.
SHADOWED = '[["Name",1,1,"x"],["int","1"],["Constant",1,5,1],["Assign",1,1,[0],2],["Arg",2,7,"x",null],["ArgWithDefault",4,null],["Arguments",[],[5],null,[],null],["Pass",2,11],["FunctionDef",2,1,"h",6,[7],[],null,[]],["Module",[3,8]]]'

# The rows of `def f(x): global x`.
PARAMETER = '[["Arg",1,7,"x",null],["ArgWithDefault",0,null],["Arguments",[],[1],null,[],null],["Global",1,11,["x"]],["FunctionDef",1,1,"f",2,[3],[],null,[]],["Module",[4]]]'

# The rows of the type `(int) -> int`.
FUNCTION_TYPE = '[["Name",1,2,"int"],["Name",1,10,"int"],["FunctionType",[0],1]]'

# The rows of a `break` alone.
BREAK = '[["Break",3,5],["Module",[0]]]'

# The rows of `f(a + 1)`.
CALL = '[["Name",1,1,"f"],["Name",1,3,"a"],["int","1"],["Constant",1,7,2],["BinOp",1,3,1,"Add",3],["Call",1,1,0,[4],[]],["Expr",1,1,5],["Module",[6]]]'

# The rows of `try: f(a)` with `except b: c` behind it.
TRY = '[["Name",1,6,"f"],["Name",1,8,"a"],["Call",1,6,0,[1],[]],["Expr",1,6,2],["Name",2,8,"b"],["Name",2,11,"c"],["Expr",2,11,5],["ExceptHandler",4,null,[6]],["Try",1,1,[3],[7],[],[]],["Module",[8]]]'

# The rows of a module as people write them: a class with methods, and a function with a generator expression, handlers and a
# last part.
PEOPLE = (
    '[["Alias","os.path","p"],["Import",1,1,[0]],["Name",2,13,"Base"],["str","A shape."],["Constant",3,5,3],["Expr",3,5,4],["Arg",4,18,"self",null],["ArgWi'
    'thDefault",6,null],["Arg",4,24,"n",null],["ArgWithDefault",8,null],["Arg",4,30,"unit",null],["str","m"],["Constant",4,35,11],["ArgWithDefault",10,12],'
    '["Arguments",[],[7,9],null,[13],null],["Name",5,9,"super"],["Call",5,9,15,[],[]],["Attribute",5,9,16,"__init__"],["Call",5,9,17,[],[]],["Expr",5,9,18]'
    ',["Name",6,9,"self"],["Attribute",6,9,20,"n"],["Name",6,18,"n"],["Assign",6,9,[21],22],["FunctionDef",4,5,"__init__",14,[19,23],[],null,[]],["Arg",8,1'
    '4,"n",null],["ArgWithDefault",25,null],["Arguments",[],[26],null,[],null],["Name",8,25,"Shape"],["Name",8,31,"n"],["Call",8,25,28,[29],[]],["Return",8'
    ',18,30],["Name",7,6,"staticmethod"],["FunctionDef",8,5,"make",27,[31],[32],null,[]],["ClassDef",2,1,"Shape",[2],[],[5,24,33],[],[]],["Arg",9,11,"items'
    '",null],["ArgWithDefault",35,null],["Arguments",[],[36],null,[],null],["Name",11,16,"sum"],["Name",11,20,"i"],["Attribute",11,20,39,"n"],["Name",11,28'
    ',"i"],["Name",11,33,"items"],["Name",11,42,"i"],["Comprehension",41,42,[43],false],["GeneratorExp",11,19,40,[44]],["Call",11,16,38,[45],[]],["Return",'
    '11,9,46],["Name",12,13,"TypeError"],["Name",12,24,"ValueError"],["Tuple",12,12,[48,49]],["Name",13,9,"print"],["str","bad "],["Constant",13,15,52],["N'
    'ame",13,22,"e"],["FormattedValue",13,15,54,"Repr",null],["JoinedStr",13,15,[53,55]],["Call",13,9,51,[56],[]],["Expr",13,9,57],["Raise",14,9,null,null]'
    ',["ExceptHandler",50,"e",[58,59]],["Name",16,9,"p"],["Attribute",16,9,61,"flush"],["Call",16,9,62,[],[]],["Expr",16,9,63],["Try",10,5,[47],[60],[],[64'
    ']],["FunctionDef",9,1,"total",37,[65],[],null,[]],["Module",[1,34,66]]]'
)

# The line of words that have no form.
USAGE = "usage: pyc MODE LEVEL PATH\n"

# The file of the code of `1`, its listing, and the offset of its instruction.
FILE = code_files.FILES["one"]
LISTING = "code '<module>' from 'm.py' line 1 flags 1 args 0 0 0 depth 0\nconstants: 1\n0 1:1 ReturnConst 0 1\n"
OPCODE = 54

# Words, an input, and the text that is written.
TEXTS = [
    ('eval 0 m.py', ONE, LISTING),
    ('names m.py', CLOSURE, 'captured top/f/lambda x from top/f\n'),
    ('names m.py', UNBOUND, 'unbound top/g z\nunused top/g y\n'),
    ('names m.py', SHADOWED, 'shadowed top/h x over top\n'),
    ('names m.py', ONE, ''),
    ('sample 0 0', '', 'statements 0\ncodes 1\nunits 1\nconstants 1\ndepth 0\n'),
    ('sample 4 0', '', 'statements 4\ncodes 3\nunits 29\nconstants 4\ndepth 3\n'),
    ('sample 4 1', '', 'statements 4\ncodes 3\nunits 28\nconstants 4\ndepth 3\n'),
    ('sample 8 0', '', 'statements 8\ncodes 5\nunits 57\nconstants 6\ndepth 3\n'),
    ('sample 0008 0', 'no rows', 'statements 8\ncodes 5\nunits 57\nconstants 6\ndepth 3\n'),
    ('sample 203 2', '', 'statements 203\ncodes 103\nunits 1479\nconstants 104\ndepth 3\n'),
    ('sample 00000000000000000000000000000000000000 0', '', 'statements 0\ncodes 1\nunits 1\nconstants 1\ndepth 0\n'),
]

# Rows, a script, and the lines of one run; the other has the same.
STEPS = [
    (CALL, 'g1,g1,g1,g1', "load 'f'\nload 'a'\nop BinaryOperation Add: #1.0, 1\nop CallFunctionPositional 1: #0.0, #2.0\nreturned None\n"),
    (CALL, 'g1,r', "load 'f'\nload 'a'\nraised #1.0\n"),
    (CALL, '', "load 'f'\nstopped\n"),
    (TRY, 'g1,g1,r,g1,g1,t,g1', "load 'f'\nload 'a'\nop CallFunctionPositional 1: #0.0, #1.0\nload 'b'\nop TestOperation ExceptionMatch: #2.0, #3.0\ntruth #4.0\nload 'c'\nreturned None\n"),
    (TRY, 'g1,g1,r,g1,g1,f', "load 'f'\nload 'a'\nop CallFunctionPositional 1: #0.0, #1.0\nload 'b'\nop TestOperation ExceptionMatch: #2.0, #3.0\ntruth #4.0\nraised #2.0\n"),
]

# Words, an input, the status, and the line that says why not.
LINES = [
    ('step exec 0 m.py g1', BREAK, "Refused", "3:5 'break' outside loop\n"),
    ('step exec 0 m.py g1', '[]', "Input", 'input: not rows\n'),
    ('step exec 0 m.py g0', ONE, "Usage", USAGE),
    ('step exec 0 m.py g4194304', ONE, "Usage", USAGE),
    ('step exec 0 m.py g1,', ONE, "Usage", USAGE),
    ('step exec 0 m.py', ONE, "Usage", USAGE),
    ('step exec 3 m.py g1', ONE, "Usage", USAGE),
    ('step exec 0 m.py g1 r', ONE, "Usage", USAGE),
    ('names m.py', PARAMETER, "Refused", "1:11 name 'x' is parameter and global\n"),
    ('names m.py', FUNCTION_TYPE, "Refused", '-:- malformed tree: WrongMode\n'),
    ('pack exec 0 m.py', BREAK, "Refused", "3:5 'break' outside loop\n"),
    ('pack exec 0 m.py', '[["Interactive",[]]]', "Refused", '-:- malformed tree: WrongMode\n'),
    ('pack exec 0 m.py', '[]', "Input", 'input: not rows\n'),
    ('names m.py', '[', "Input", 'input: not JSON\n'),
    ('unpack', 'PYC', "Input", 'input: bad code file at 0\n'),
    ('unpack', ONE, "Input", 'input: bad code file at 0\n'),
    ('', ONE, "Usage", USAGE),
    ('-h', ONE, "Usage", USAGE),
    ('names', ONE, "Usage", USAGE),
    ('names m.py n.py', ONE, "Usage", USAGE),
    ('unpack m.py', ONE, "Usage", USAGE),
    ('pack exec 0', ONE, "Usage", USAGE),
    ('pack exec 3 m.py', ONE, "Usage", USAGE),
    ('pack exec 0 m.py n.py', ONE, "Usage", USAGE),
    ('Pack exec 0 m.py', ONE, "Usage", USAGE),
    ('sample', ONE, "Usage", USAGE),
    ('sample 4', ONE, "Usage", USAGE),
    ('sample 131072 0', ONE, "Usage", USAGE),
    ('sample 00131072 0', ONE, "Usage", USAGE),
    ('sample 18446744073709551616 0', ONE, "Usage", USAGE),
    ('sample +4 0', ONE, "Usage", USAGE),
    ('sample -4 0', ONE, "Usage", USAGE),
    ('sample 4x 0', ONE, "Usage", USAGE),
    ('sample 4 3', ONE, "Usage", USAGE),
    ('sample 4 0 m.py', ONE, "Usage", USAGE),
    ('Sample 4 0', ONE, "Usage", USAGE),
]

# Rows, the status of their run, and the line that says what is wrong.
WRONG_ROWS = [
    ('{}', "Input", 'input: not rows\n'),
    ('[]', "Input", 'input: not rows\n'),
    ('[["Pass",1,1],["Module",[2]]]', "Input", 'input: row 1: later row\n'),
    ('[["Module",[]],["Module",[]]]', "Input", 'input: row 0: not named\n'),
    ('[["Name",0,1,"a"],["Expression",0]]', "Input", 'input: row 0: wrong form\n'),
    ('[["int","170141183460469231731687303715884105728"],["Constant",1,1,0],["Expression",1]]', "Input", 'input: row 0: integer too wide\n'),
    ('[["Pass",1,1],["Expression",0]]', "Input", 'input: row 1: wrong kind\n'),
    ('[["Pass",1,1]]', "Input", 'input: no module\n'),
    ('[["Module",[]]]', "Done", ''),
    ('[["Interactive",[]]]', "Refused", '-:- malformed tree: WrongMode\n'),
    ('[["Break",1,1],["Module",[0]]]', "Refused", "1:1 'break' outside loop\n"),
    ('[["Name",1,2,"a"],["Starred",1,1,0],["Name",1,6,"b"],["Starred",1,5,2],["Tuple",1,1,[1,3]],["Name",1,10,"c"],["Assign",1,1,[4],5],["Module",[6]]]', "Refused", '1:10 two starred expressions in assignment\n'),
    ('[["Name",1,1,"f"],["Call",1,1,0,[],[]],["int","1"],["Constant",1,7,2],["Assign",1,1,[1],3],["Module",[4]]]', "Refused", '1:7 cannot assign to function call\n'),
    ('[["Alias","foo",null],["ImportFrom",1,1,"__future__",[0],0],["Module",[1]]]', "Refused", '1:1 future feature foo is not defined\n'),
    ('[["Arg",1,7,"x",null],["ArgWithDefault",0,null],["Arguments",[],[1],null,[],null],["Global",1,11,["x"]],["FunctionDef",1,1,"f",2,[3],[],null,[]],["Module",[4]]]', "Refused", "1:11 name 'x' is parameter and global\n"),
    ('[["Nonlocal",1,1,["x"]],["Module",[0]]]', "Refused", "1:1 cannot define nonlocal 'x' at top level.\n"),
    ('[["Name",1,2,"y"],["int","0"],["Constant",1,7,1],["NamedExpr",1,2,0,2],["Name",1,13,"y"],["Name",1,18,"z"],["Comprehension",4,5,[],false],["ListComp",1,1,3,[6]],["Expr",1,1,7],["Module",[8]]]', "Refused", '1:2 assignment expression cannot be used in a comprehension iterable expression\n'),
    ('[["Arguments",[],[],null,[],null],["Nonlocal",1,10,["x"]],["FunctionDef",1,1,"f",0,[1],[],null,[]],["Module",[2]]]', "Refused", "-:- no binding for nonlocal 'x' found\n"),
    ('[["Global",1,1,["x"]],["Nonlocal",2,1,["x"]],["Module",[0,1]]]', "Refused", '-:- nonlocal x defined at place without an enclosing scope\n'),
]

# The words before the path, and the source.
SOURCES = [
    ("exec 0", "if True or False or False:\n pass"),
    ("exec 0", "if True and False and False:\n pass"),
    ("exec 0", "if (True and False) or (False and True):\n pass"),
    ("eval 0", "a < b < c"),
    ("eval 0", "1"),
    ("eval 0", "x if c else 1"),
    ("exec 0", "if c:\n" + " x\n" * 126 + " del x"),
    ("exec 0", "if c:\n" + "\n".join([" x"] * 127)),
    ("exec 0", "while c: break\nelse: raise x\nf(a, b)"),
    ("exec 0", "def f(x): return lambda: x"),
    ("exec 0", "def f(y):\n class A:\n  y = 1\n  def g(self):\n   super()\n   return y"),
    ("exec 0", "def f(): return [y := v for v in z]"),
    ("exec 0", "[(lambda: y) for v in z if (y := v)]"),
    ("exec 0", "while a:\n try: break\n finally: b"),
    ("exec 0", "with a as x: raise e"),
    ("exec 0", "d[(lambda: k)()] = [x for x in y]"),
    ("exec 1", "assert all(x for x in y)"),
    ("exec 0", "raise x\ndef f(): return y"),
    ("exec 1", "raise x\ndef f(): return y"),
    ("exec 0", ", ".join(["a"] * 255) + ", *b = c"),
    ("exec 0", ", ".join(["a"] * 256) + ", *b = c"),
    ("exec 0", "from __future__ import annotations\ndef f(a: List[int] | None): pass"),
    ("exec 0", "def f(a, b=1, *, c, d=2, **k): pass"),
    ("exec 0", "class A:\n class __B: pass"),
    ("exec 0", "{**a, 'x': 1}"),
    ("eval 0", "f'{a:>4}'"),
    ("exec 0", "try: a\nexcept E as e: b"),
]

# What Python's parser does not give.
ROWS = [
    ("single 0", "nothing at a prompt", '[["Interactive",[]]]'),
    ("block 0", "nothing in a block", '[["Interactive",[]]]'),
]

# Those with type parameters.
GENERIC = [
    "def f[T](x: T = 1): pass",
    "class A[T]: x = T",
    "type X[T] = int",
    "class A:\n y = 1\n def m[T](self, z: y): pass",
    "def f[**P](): pass",
]


def generic_rows(python, source):
    """The rows of a source with type parameters."""
    code = "import sys; sys.path.insert(0, sys.argv[1]); from py2rows import rows_text; print(rows_text(sys.argv[2]))"
    ran = subprocess.run([python, "-B", "-c", code, MODEL, source], stdout=subprocess.PIPE, check=True)
    return ran.stdout.decode("utf-8").strip()


def programs(python):
    """The words, the source and the rows of each program."""
    for words, source in SOURCES:
        yield words, source, rows_text(source, "eval" if words.startswith("eval") else "exec")
    yield from ROWS
    for source in GENERIC:
        yield "exec 0", source, generic_rows(python, source)


def model(words: str, rows: str) -> Tuple[str, str, str]:
    """The status, the text and the line of a run over rows, as the model has it."""
    status, out, err, _ = compile_rows.run(words.split(" "), rows.encode("utf-8"), True)
    return {0: "Done", 1: "Refused"}[status], out, err


def ended(text: str) -> str:
    return text if text.endswith("\n") or not text else text + "\n"


def told(status: str, out: str, err: str) -> str:
    """The lines of a run that ends so."""
    return "%s, %d and %d bytes\n%s%s" % (status, len(out.encode("utf-8")), len(err.encode("utf-8")), ended(out), ended(err))


def clean(words: str, text: str, status: str, out: str, err: str, room: int = 1 << 14) -> Case:
    """A run over a text, with devices that do not fail."""
    return "clean %d 1024 | %s | text %s" % (room, words, text), told(status, out, err)


def pieces(devices: str, text: str, status: str, out: str, err: str = "", words: str = "exec 0 m.py") -> Case:
    """A run over a text by pieces, in which nothing is read late and nothing written in part."""
    return "pieces %s | %s | text %s" % (devices, words, text), told(status, out, err) + "0 late reads, 0 partial writes\n"


def digits(words: str, spelled: str, status: str, out: str, err: str) -> Case:
    """A run over bytes that are spelled as digits."""
    return "clean 1024 1024 | %s | hex %s" % (words, spelled), told(status, out, err)


def endings() -> Iterator[Case]:
    """Each way to end, where rows are read by pieces of 64 bytes and the listing is written by pieces of 16."""
    _, listing, _ = model("exec 0 m.py", CALL)
    yield pieces("64 0 16 0 1024", CALL, "Done", listing)
    yield pieces("64 0 16 0 1024", BREAK, "Refused", "", "3:5 'break' outside loop\n", words="exec 2 m.py")
    yield pieces("64 0 16 0 1024", "", "Usage", "", USAGE, words="exec 3 m.py")
    yield pieces("64 0 16 0 1024", '[["Pass",1,1],["Module",[0,0]]]', "Input", "", "input: row 1: named twice\n", words="exec 1 m.py")
    yield pieces("64 2 16 0 1024", CALL, "ReadFault", "")
    yield pieces("64 0 16 3 1024", CALL, "WriteFault", listing[:32])


def failing() -> Iterator[Case]:
    """One of the first four reads or writes fails, none does, or one that is not made; and a room that is too small."""
    _, listing, _ = model("exec 0 m.py", PEOPLE)
    for read in (1, 2, 3, 4):
        yield pieces("16 %d 16 0 8192" % read, PEOPLE, "ReadFault", "")
    for write in (1, 2, 3, 4):
        yield pieces("16 0 16 %d 8192" % write, PEOPLE, "WriteFault", listing[: 16 * (write - 1)])
    yield pieces("16 0 16 0 8192", PEOPLE, "Done", listing)
    yield pieces("1 %d 1 0 8192" % (len(PEOPLE) + 2), PEOPLE, "Done", listing)
    size = len(listing)
    yield "clean %d 0 | exec 0 m.py | text %s" % (size, PEOPLE), told("Done", listing, "")
    yield "clean %d 64 | exec 0 m.py | text %s" % (size - 1, PEOPLE), told("WriteFault", "", "")
    yield "# a run that reads no input, whose first read would fail", "# a run that reads no input, whose first read would fail\n"
    yield pieces("1 1 50 0 50", ONE, "Done", TEXTS[6][2], words="sample 4 0")


def commands() -> Iterator[Case]:
    """Each command: what is written, and why nothing is."""
    for words, text, out in TEXTS:
        yield clean(words, text, "Done", out, "")
    for rows, script, lines in STEPS:
        yield clean("step exec 0 m.py " + script, rows, "Done", "code\n%stree\n%s" % (lines, lines), "")
    for words, text, status, line in LINES:
        yield clean(words, text, status, "", line)


def files() -> Iterator[Case]:
    """A file that is packed and unpacked, and edits of it. Bytes that are no text are written as digits."""
    question, _ = clean("pack eval 0 m.py", ONE, "Done", "", "")
    yield question, "Done, %d and 0 bytes\n%s\n" % (len(FILE), FILE.hex())
    yield digits("unpack", FILE.hex(), "Done", LISTING, "")
    for edited, line in [
        (FILE[:105], "input: bad code file at 105\n"),
        (FILE + b"\0", "input: bad code file at 106\n"),
        (FILE[:OPCODE] + bytes([92]) + FILE[OPCODE + 1 :], "input: bad code file at 54\n"),
        (FILE[:OPCODE] + bytes([32]) + FILE[OPCODE + 1 :], "input: code does not verify\n"),
    ]:
        yield digits("unpack", edited.hex(), "Input", "", line)


def with_rows(count: int) -> str:
    """The rows of one `with` of so many items: a name and an item for each, then the body, the `with` and the module."""
    rows = ['["Name",1,6,"a"],["WithItem",%d,null]' % (2 * item) for item in range(count)]
    items = ",".join(str(2 * item + 1) for item in range(count))
    return "[%s,[\"Pass\",1,9],[\"With\",1,1,[%s],[%d]],[\"Module\",[%d]]]" % (",".join(rows), items, 2 * count, 2 * count + 1)


def minus_rows(count: int) -> str:
    """The rows of so many unary minuses over a name, each of which names the row before it."""
    rows = ['["UnaryOp",1,1,"USub",%d]' % operand for operand in range(count)]
    return '[["Name",1,1,"a"],%s,["Expression",%d]]' % (",".join(rows), count)


def wrong_rows() -> Iterator[Case]:
    """Inputs that are no rows, trees that are refused, and what is as deep or as long as may be."""
    for rows, status, line in WRONG_ROWS:
        out = model("exec 0 m.py", rows)[1] if status == "Done" else ""
        yield clean("exec 0 m.py", rows, status, out, line)
    yield clean("exec 0 m.py", PEOPLE.split("ClassDef")[0], "Input", "", "input: not JSON\n")
    yield digits("exec 0 m.py", "20*%d" % ((1 << 26) - 1), "Input", "", "input: not JSON\n")
    yield digits("exec 0 m.py", "20*%d" % (1 << 26), "Input", "", "input: too long\n")
    yield clean("exec 0 m.py", with_rows(1020), *model("exec 0 m.py", with_rows(1020)), room=1 << 20)
    yield clean("exec 0 m.py", with_rows(1021), "Input", "", "input: row 2044: too deep\n")
    yield clean("eval 0 m.py", minus_rows(1021), *model("eval 0 m.py", minus_rows(1021)), room=1 << 20)
    yield clean("eval 0 m.py", minus_rows(1022), "Input", "", "input: row 1023: too deep\n")


def worked(python: str) -> Iterator[Case]:
    """Worked programs, each behind a line with its source, and a made program of 100,000 statements, twice."""
    for words, source, rows in programs(python):
        note = "# " + source.replace("\\", "\\\\").replace("\n", "\\n")
        yield note, note + "\n"
        yield clean(words + " m.py", rows.strip(), *model(words + " m.py", rows))
    for _ in range(2):
        yield clean("sample 100000 0", "", "Done", "statements 100000\ncodes 50001\nunits 938718\nconstants 50002\ndepth 3\n", "")


def interrupted() -> Iterator[Case]:
    """Calls of std's readers and writers: those that a signal interrupts are made again, and no other."""
    for name, moved in (("read", "Got"), ("write", "Took")):
        yield "%s interrupted 3" % name, moved + "(1)\n"
        yield "%s other 1" % name, "Failed\n"


def cases(python: str) -> Iterator[Case]:
    groups = [endings(), failing(), commands(), files(), wrong_rows(), worked(python), interrupted()]
    for group in groups:
        yield from group


def main() -> int:
    parser = argparse.ArgumentParser(prog="run_cases.py", description="Writes the cases of crates/pyc_vectors.")
    parser.add_argument("--python", metavar="PYTHON", default="python3.12", help="a Python of 3.12 or later, for type parameters (%(default)s)")
    parser.add_argument("--check", action="store_true", help="compare them alone")
    args = parser.parse_args()
    sys.setrecursionlimit(20000)
    return case_files.settle("pyc_vectors", cases(args.python), args.check, end="")


if __name__ == "__main__":
    sys.exit(main())
