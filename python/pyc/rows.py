"""The rows of a Python source, which the program reads. docs/ROWS.md says what rows are.

Places are those of the Python that runs this: before 3.12 it puts the texts in an f-string at its start, and some of what
stands in its braces elsewhere.
"""
from __future__ import annotations

import ast
import bisect
import collections
import functools
import gc
import itertools
import json
import operator
import re
import sys
import warnings
from typing import List, Optional, Tuple, Union

# The fields of each kind of node, in the order of its row. A field is a node or None; behind a name stands * for a list of
# nodes, ! for a name, a number or None that rows take as it is, ? for what `truth_of` and the like make of it.
FIELDS = {
    "Module": "body*",
    "Interactive": "body*",
    "Expression": "body",
    "FunctionType": "argtypes* returns",
    "FunctionDef": "name! args body* decorator_list* returns type_params*",
    "AsyncFunctionDef": "name! args body* decorator_list* returns type_params*",
    "ClassDef": "name! bases* keywords* body* decorator_list* type_params*",
    "Return": "value",
    "Delete": "targets*",
    "Assign": "targets* value",
    "TypeAlias": "name type_params* value",
    "AugAssign": "target op? value",
    "AnnAssign": "target annotation value simple?",
    "For": "target iter body* orelse*",
    "AsyncFor": "target iter body* orelse*",
    "While": "test body* orelse*",
    "If": "test body* orelse*",
    "With": "items* body*",
    "AsyncWith": "items* body*",
    "Match": "subject cases*",
    "Raise": "exc cause",
    "Try": "body* handlers* orelse* finalbody*",
    "TryStar": "body* handlers* orelse* finalbody*",
    "Assert": "test msg",
    "Import": "names*",
    "ImportFrom": "module! names* level?",
    "Global": "names!",
    "Nonlocal": "names!",
    "Expr": "value",
    "Pass": "",
    "Break": "",
    "Continue": "",
    "BoolOp": "op? values*",
    "NamedExpr": "target value",
    "BinOp": "left op? right",
    "UnaryOp": "op? operand",
    "Lambda": "args body",
    "IfExp": "test body orelse",
    "Dict": "keys* values*",
    "Set": "elts*",
    "List": "elts*",
    "Tuple": "elts*",
    "ListComp": "elt generators*",
    "SetComp": "elt generators*",
    "GeneratorExp": "elt generators*",
    "DictComp": "key value generators*",
    "Await": "value",
    "YieldFrom": "value",
    "Starred": "value",
    "Yield": "value",
    "Compare": "left ops? comparators*",
    "Call": "func args* keywords*",
    "FormattedValue": "value conversion? format_spec",
    "JoinedStr": "values*",
    "Constant": "value!",
    "Attribute": "value attr!",
    "Subscript": "value slice",
    "Name": "id!",
    "Slice": "lower upper step",
    "arguments": "posonlyargs* args* vararg kwonlyargs* kwarg",
    "arg": "arg! annotation",
    "keyword": "arg! value",
    "alias": "name! asname!",
    "withitem": "context_expr optional_vars",
    "ExceptHandler": "type name! body*",
    "comprehension": "target iter ifs* is_async?",
    "match_case": "body*",
    "TypeVar": "name! bound",
    "ParamSpec": "name!",
    "TypeVarTuple": "name!",
}

# The words of those kinds whose rows have another word than Python's class.
WORDS = {
    "arguments": "Arguments",
    "arg": "Arg",
    "keyword": "Keyword",
    "alias": "Alias",
    "withitem": "WithItem",
    "comprehension": "Comprehension",
    "match_case": "MatchCase",
}

# The kinds that have a place in Python, and none in rows.
WITHOUT_PLACE = {"keyword", "alias", "ExceptHandler"}

CONVERSIONS = {-1: "None", ord("s"): "Str", ord("a"): "Ascii", ord("r"): "Repr"}

# Blanks, comments and line ends, as they may stand between the tokens in brackets.
BLANK = re.compile(rb"(?:[ \t\f\n]|\\\n|#[^\n]*)*")

SURROGATE = re.compile(r"[\ud800-\udfff]")

# A parameter with its default, or None.
Parameter = collections.namedtuple("Parameter", "arg default")


class Fault(Exception):
    """What keeps a source from being rows, at a row and a column, or at no place (None)."""

    def __init__(self, text: str, place: Optional[Tuple[int, int]] = None):
        super().__init__(text)
        self.place = place

    def line(self, name):
        """The line that tells it of the source of that name."""
        place = "" if self.place is None else "%d:%d:" % self.place
        return "%s:%s %s" % (name, place, self) if place else "%s: %s" % (name, self)


class Source:
    """The text of a source, in which places are looked up."""

    def __init__(self, text):
        self.text = text.replace("\r\n", "\n").replace("\r", "\n")
        lines = self.text.split("\n")
        # The length of each line in which a column of bytes is one of characters, and -1 of the others.
        lengths = map(len, lines) if text.isascii() else (len(it) if it.isascii() else -1 for it in lines)
        self.narrow = dict(enumerate(lengths, 1))
        self.wide = {}

    @functools.cached_property
    def bytes(self):
        """The text in UTF-8, of which columns of Python count the bytes."""
        return self.text.encode("utf-8")

    @functools.cached_property
    def starts(self):
        """The offset at which each line begins, and the one behind the last."""
        return [0, *itertools.accumulate(len(it) + 1 for it in self.bytes.split(b"\n"))]

    def offset(self, line, column):
        """The offset of a line, counted from 1, and a column of bytes, counted from 0; at most the end of that line."""
        if not 1 <= line < len(self.starts):
            return len(self.bytes)
        return min(self.starts[line - 1] + max(column, 0), self.starts[line] - 1)

    def place(self, line, column):
        """The row and the column of a line and a column of bytes. Columns of rows are counted in characters, from 1."""
        start = self.offset(line, 0)
        if line not in self.wide:
            text = self.bytes[start : self.offset(line, len(self.bytes))]
            # Where characters begin: everywhere but at the bytes that go on with one.
            begins = [at for at, byte in enumerate(text) if byte & 0xC0 != 0x80]
            self.wide[line] = None if len(begins) == len(text) else begins
        before = self.offset(line, column) - start
        begins = self.wide[line]
        return (line, (before if begins is None else bisect.bisect_left(begins, before)) + 1)

    def place_at(self, offset):
        """The row and the column of an offset."""
        line = bisect.bisect_right(self.starts, offset)
        return self.place(line, offset - self.starts[line - 1])

    def after(self, offset, tokens):
        """The offset of the first token from there on that is none of these characters."""
        while True:
            offset = BLANK.match(self.bytes, offset).end()
            if self.bytes[offset : offset + 1] not in tokens:
                return offset
            offset += 1

    def end(self, node):
        """The offset of a node's end."""
        return self.offset(node.end_lineno, node.end_col_offset)


class NoSource:
    """In the place of a Source for a tree of which no source is at hand: columns are taken to be characters."""

    narrow: dict = {}
    bytes = b""
    starts = (0, 0)

    def place(self, line, column):
        return (max(line, 1), max(column, 0) + 1)

    def after(self, offset, tokens):
        return offset

    def end(self, node):
        return 0


def place_slices(tree, source):
    """Gives the subscripts of Python 3.8 the form that later ones give them, where a Slice has a place."""
    for node in ast.walk(tree):
        if isinstance(node, ast.Subscript):
            node.slice = placed_slice(node, source)


def placed_slice(subscript, source):
    """What stands in the brackets, as an expression."""
    found = subscript.slice
    name = type(found).__name__
    if name == "Index":
        return found.value
    at = source.after(source.end(subscript.value), (b")",))
    at = source.after(at + 1, ()) if source.bytes[at : at + 1] == b"[" else None
    if name == "Slice":
        return located(found, at, subscript, source)
    first, dims = at, []
    for dim in found.dims:
        at = at if at is None else source.after(at, (b",",))
        is_slice = isinstance(dim, ast.Slice)
        dims.append(located(dim, at, subscript, source) if is_slice else dim.value)
        if at is not None:
            parts = [dim.lower, dim.upper, dim.step] if is_slice else [dim.value]
            at = max([at] + [source.end(it) for it in parts if it is not None])
            at = source.after(at, (b")", b":") if is_slice else (b")",))
            at = at if source.bytes[at : at + 1] in (b",", b"]") else None
    return located(ast.Tuple(elts=dims, ctx=ast.Load()), first, subscript, source)


def located(node, offset, subscript, source):
    """The node with the place of that offset; of its subscript where there is none, as within an f-string."""
    node.lineno, node.col_offset = subscript.lineno, subscript.col_offset
    if offset is not None:
        node.lineno = bisect.bisect_right(source.starts, offset)
        node.col_offset = offset - source.starts[node.lineno - 1]
    return node


def refuse(node, source, text):
    """Tells that rows have no word for this, at the place of the node where it has one."""
    has_place = hasattr(node, "lineno")
    raise Fault("rows have no word for " + text, source.place(node.lineno, node.col_offset) if has_place else None)


def literal_row(value, node, source):
    """The row of the value of a Constant, which is the node."""
    kind = value.__class__
    if kind is str:
        if not value.isascii() and SURROGATE.search(value):
            refuse(node, source, "a surrogate")
        return ["str", value]
    if kind is int:
        if not -(2**127) <= value < 2**127:
            refuse(node, source, "an integer past 128 bits")
        return ["int", str(value)]
    if value is None or value is Ellipsis or kind is bool:
        return [{None: "none", Ellipsis: "ellipsis", True: "true", False: "false"}[value]]
    if kind is bytes:
        return ["bytes", value.hex()]
    names = {float: "a float", complex: "a complex number"}
    return refuse(node, source, names.get(kind, "a constant of the class " + kind.__name__))


def parameters(args):
    """The values of the fields of Arguments."""
    positional = args.posonlyargs + args.args
    defaults = [None] * (len(positional) - len(args.defaults)) + args.defaults
    both = list(map(Parameter, positional, defaults))
    only = len(args.posonlyargs)
    return both[:only], both[only:], args.vararg, list(map(Parameter, args.kwonlyargs, args.kw_defaults)), args.kwarg


def check_case(node, source):
    """Stops at a part of a case that its row leaves out, and that means something."""
    pattern = node.pattern
    if type(pattern).__name__ != "MatchAs" or pattern.name is not None or pattern.pattern is not None:
        refuse(pattern, source, "a pattern of match but _")
    if node.guard is not None:
        refuse(node.guard, source, "a guard of match")


def check_default(node, source):
    """Stops at the default of a type parameter, which rows leave out."""
    if getattr(node, "default_value", None) is not None:
        refuse(node.default_value, source, "the default of a type parameter")


CHECKS = {"match_case": check_case, "TypeVar": check_default, "ParamSpec": check_default, "TypeVarTuple": check_default}


def name_of(operator):
    """The word of an operator."""
    return type(operator).__name__


# What rows say of a field whose value they do not take as it is.
SAID = {
    "op": name_of,
    "ops": lambda operators: list(map(name_of, operators)),
    "simple": bool,
    "is_async": bool,
    "level": lambda level: level or 0,
    "conversion": CONVERSIONS.__getitem__,
}


# How the row of a kind is made of a node: its word, the function that gives the values of its fields, with the line and
# the column first where it has a place, whether it has one, the check of what is left out, what is said otherwise than
# Python says it (where it stands in the row, and how), and where nodes stand (whether there is a list of them).
Plan = collections.namedtuple("Plan", "word values has_place check said nodes")


def plan_of(kind):
    """The plan of a kind of node."""
    marked = FIELDS[kind].split()
    names = [it.rstrip("*!?") for it in marked]
    made = getattr(ast, kind)
    # The Slice of Python 3.8 has a place once place_slices has given it one.
    has_place = ("lineno" in made._attributes or kind == "Slice") and kind not in WITHOUT_PLACE
    values = values_of(made, (["lineno", "col_offset"] if has_place else []) + names)
    first = 3 if has_place else 1
    said = [(at, SAID[name]) for at, (name, it) in enumerate(zip(names, marked), first) if it.endswith("?")]
    nodes = [(at, it.endswith("*")) for at, it in enumerate(marked, first) if not it.endswith(("!", "?"))]
    return Plan(WORDS.get(kind, kind), values, has_place, CHECKS.get(kind), said, nodes)


def is_empty(node):
    """Whether a node is the empty text."""
    return isinstance(node, ast.Constant) and node.value == ""


def values_of(made, names):
    """The function that gives the values of these names of a node of this class."""
    if made is ast.arguments:
        return parameters
    if made is ast.JoinedStr:
        # Python 3.12 has an empty text after the braces of a format, which no other has.
        return lambda node: (node.lineno, node.col_offset, [it for it in node.values if not is_empty(it)])
    there = [it for it in names if it in ("lineno", "col_offset") or it in made._fields]
    if len(there) > 1:
        get = operator.attrgetter(*there)
    else:
        get = lambda node: [getattr(node, it) for it in there]
    # Before 3.12 there are no type parameters, which stand last where they stand in an older kind.
    return get if there == names else lambda node: (*get(node), [])


# The plans of the classes of nodes that this Python has.
PLANS = {getattr(ast, kind): plan_of(kind) for kind in FIELDS if hasattr(ast, kind)}
PLANS[Parameter] = Plan("ArgWithDefault", tuple, False, None, (), ((1, False), (2, False)))


def rows_of(tree, source):
    """The rows of a tree, each after those that it names, which come in the order of its fields."""
    try:
        return walked(tree, source, False)
    except Fault:
        # That is a fault, and this one is the first in the order of the source.
        return walked(tree, source, True)


def walked(tree, source, is_forward):
    """The rows of a tree, which is gone through from the root on, each node before its parts, the last of them first.

    That is the order of rows from the last to the first. Of parts that are gone through from the first on no rows are
    made, and a Fault is the first. A tree of any depth is gone through: what is to come is a list, and no call in a call.
    """
    rows, holes = [], []
    # Where nodes stand for which rows are still to be made: the list, and the place in it.
    waiting = [([tree], 0)]
    plans, narrow, constant = PLANS, source.narrow, ast.Constant
    while waiting:
        hole = waiting.pop()
        node = hole[0][hole[1]]
        if node is None:
            continue
        holes.append(hole)
        if node.__class__ not in plans:
            refuse(node, source, "the kind " + type(node).__name__)
        word, values, has_place, check, said, nodes = plans[node.__class__]
        row = [word, *values(node)]
        rows.append(row)
        if has_place:
            if 0 <= row[2] <= narrow.get(row[1], -1):
                row[2] += 1
            else:
                row[1:3] = source.place(row[1], row[2])
        if node.__class__ is constant:
            rows.append(literal_row(row[3], node, source))
            holes.append((row, 3))
            continue
        if check:
            check(node, source)
        for at, say in said:
            row[at] = say(row[at])
        begin = len(waiting)
        for at, is_list in nodes:
            if not is_list:
                waiting.append((row, at))
            elif row[at]:
                part = row[at] = row[at][:]
                waiting += zip(itertools.repeat(part), range(len(part)))
        if is_forward:
            waiting[begin:] = waiting[begin:][::-1]
    for number, (within, at) in enumerate(reversed(holes)):
        within[at] = number
    rows.reverse()
    return rows


def encoding_of(data: bytes) -> str:
    """The encoding that a source names in its first two lines, UTF-8 if none."""
    is_marked = data.startswith(b"\xef\xbb\xbf")
    if not is_marked and not any(b"coding" in line for line in data.split(b"\n", 2)[:2]):
        return "utf-8"
    # Here alone, since it takes long to import.
    import io
    import tokenize

    try:
        return tokenize.detect_encoding(io.BytesIO(data).readline)[0]
    except (SyntaxError, LookupError) as error:
        # Of a first line or second line that is not UTF-8 this tells no place.
        if "invalid or missing" in str(error):
            return "utf-8"
        raise Fault("%s" % error, (1, 1)) from None


def text_of(data: bytes) -> str:
    """The text of the bytes of a source, in the encoding that it names, UTF-8 if none."""
    encoding = encoding_of(data)
    try:
        return data.decode(encoding)
    except UnicodeDecodeError as error:
        line = data.count(b"\n", 0, error.start) + 1
        column = error.start - (data.rfind(b"\n", 0, error.start) + 1)
        raise Fault("the source is not %s" % error.encoding, (line, column + 1)) from None


def lines_of(source: Union[bytes, str]) -> Optional[List[str]]:
    """The lines of the bytes or the text of a source, or None where the bytes have no text."""
    try:
        text = source if isinstance(source, str) else text_of(source)
    except Fault:
        return None
    return text.replace("\r\n", "\n").replace("\r", "\n").split("\n")


def tree_of(text: str, mode: str) -> ast.AST:
    """The tree of a source, by Python's own parser."""
    try:
        with warnings.catch_warnings():
            warnings.simplefilter("ignore")
            if mode == "block":
                return ast.Interactive(ast.parse(text).body)
            return ast.parse(text, mode=mode)
    except SyntaxError as error:
        place = (max(error.lineno or 1, 1), max(error.offset or 1, 1))
        raise Fault("%s: %s" % (type(error).__name__, error.msg), place) from None
    except (RecursionError, MemoryError):
        raise Fault("it nests too deep for the parser of this Python", (1, 1)) from None
    except ValueError as error:
        raise Fault("%s" % error, (1, 1)) from None


def rows_text(source: Union[bytes, str], mode: str = "exec") -> str:
    """The rows of the bytes or the text of a source, as JSON in one line. It raises a Fault where there are none."""
    # Trees and rows hold no circles, so there is nothing for the collector to find in them.
    is_collecting = gc.isenabled()
    gc.disable()
    try:
        text = source if isinstance(source, str) else text_of(source)
        return json_of(tree_of(text, mode), Source(text))
    finally:
        if is_collecting:
            gc.enable()


def tree_text(tree: ast.AST) -> str:
    """The rows of a tree of which no source is at hand, as JSON in one line. It raises a Fault where there are none."""
    try:
        return json_of(tree, NoSource())
    except AttributeError as error:
        raise Fault("the tree is not whole: %s; ast.fix_missing_locations gives places" % error) from None
    except (TypeError, ValueError, KeyError) as error:
        raise Fault("the tree is none that Python makes: %s" % error) from None


def json_of(tree, source):
    """The rows of a tree, as JSON in one line."""
    if sys.version_info < (3, 9):
        place_slices(tree, source)
    rows = rows_of(tree, source)
    return json.dumps(rows, separators=(",", ":"), ensure_ascii=False, check_circular=False)
