"""The reader of rows: a tree, or the first thing that is wrong (docs/ROWS.md)."""
import math
import re
from dataclasses import dataclass
from typing import Optional
from tree import SCHEMA, CONSTANT_KINDS, LETTER_GROUP, Node


class NotJson(Exception):
    pass


@dataclass
class Num:
    """A JSON number, kept by its text."""
    text: str


_WS = " \t\n\r"
_NUMBER = re.compile(r"-?(?:0|[1-9][0-9]*)(?:\.[0-9]+)?(?:[eE][-+]?[0-9]+)?")
_PLAIN = re.compile(r'[^"\\\x00-\x1f]*')
_ESC = {'"': '"', "\\": "\\", "/": "/", "b": "\b", "f": "\f", "n": "\n", "r": "\r", "t": "\t"}


class Json:
    """Strict JSON text; arrays and objects nest at most 127 deep; a lone surrogate, and a number past those of 64 bits, has no reading."""

    def __init__(self, text):
        self.t, self.i = text, 0

    def ws(self):
        t, i, n = self.t, self.i, len(self.t)
        while i < n and t[i] in _WS:
            i += 1
        self.i = i

    def peek(self):
        return self.t[self.i] if self.i < len(self.t) else ""

    def want(self, s):
        if not self.t.startswith(s, self.i):
            raise NotJson(self.i)
        self.i += len(s)

    def whole(self):
        v = self.value(0)
        self.ws()
        if self.i != len(self.t):
            raise NotJson(self.i)
        return v

    def value(self, depth):
        self.ws()
        c = self.peek()
        if c == "[":
            if depth == 127:
                raise NotJson("deep")
            self.i += 1
            out = []
            self.ws()
            if self.peek() == "]":
                self.i += 1
                return out
            while True:
                out.append(self.value(depth + 1))
                self.ws()
                if self.peek() == ",":
                    self.i += 1
                    continue
                self.want("]")
                return out
        if c == "{":
            if depth == 127:
                raise NotJson("deep")
            self.i += 1
            self.ws()
            if self.peek() == "}":
                self.i += 1
                return {}
            while True:
                self.ws()
                self.string()
                self.ws()
                self.want(":")
                self.value(depth + 1)
                self.ws()
                if self.peek() == ",":
                    self.i += 1
                    continue
                self.want("}")
                return {}
        if c == '"':
            return self.string()
        if c == "t":
            self.want("true")
            return True
        if c == "f":
            self.want("false")
            return False
        if c == "n":
            self.want("null")
            return None
        m = _NUMBER.match(self.t, self.i)
        if not m or math.isinf(float(m.group())):
            raise NotJson(self.i)
        self.i = m.end()
        return Num(m.group())

    def string(self):
        self.want('"')
        out = []
        while True:
            m = _PLAIN.match(self.t, self.i)
            out.append(m.group())
            self.i = m.end()
            c = self.peek()
            if c == '"':
                self.i += 1
                return "".join(out)
            if c != "\\":
                raise NotJson(self.i)
            self.i += 1
            e = self.peek()
            self.i += 1
            if e in _ESC and e:
                out.append(_ESC[e])
                continue
            if e != "u":
                raise NotJson(self.i)
            u = self.hex4()
            if 0xD800 <= u < 0xDC00:
                self.want("\\u")
                low = self.hex4()
                if not 0xDC00 <= low < 0xE000:
                    raise NotJson("surrogate")
                u = 0x10000 + ((u - 0xD800) << 10) + (low - 0xDC00)
            elif 0xDC00 <= u < 0xE000:
                raise NotJson("surrogate")
            out.append(chr(u))

    def hex4(self):
        h = self.t[self.i : self.i + 4]
        if not re.fullmatch("[0-9a-fA-F]{4}", h):
            raise NotJson(self.i)
        self.i += 4
        return int(h, 16)


def parse_json(data: bytes):
    try:
        text = data.decode("utf-8")
    except UnicodeDecodeError:
        raise NotJson("utf-8")
    return Json(text).whole()


@dataclass(frozen=True)
class RowsError:
    variant: str
    row: Optional[int] = None

    def text(self):
        what = {"NotJson": "not JSON", "NotRows": "not rows", "NoMod": "no module", "WrongRow": "wrong form", "WideInteger": "integer too wide",
                "LaterRow": "later row", "WrongKind": "wrong kind", "NamedTwice": "named twice", "TooDeep": "too deep", "NotNamed": "not named"}[self.variant]
        return what if self.row is None else f"row {self.row}: {what}"


OPS = {"BoolOp": {"And", "Or"}, "UnaryOp": {"Invert", "Not", "UAdd", "USub"},
       "Compare": {"Eq", "NotEq", "Lt", "LtE", "Gt", "GtE", "Is", "IsNot", "In", "NotIn"},
       "FormattedValue": {"None", "Str", "Ascii", "Repr"}}
BINARY = {"Add", "Sub", "Mult", "MatMult", "Div", "FloorDiv", "Mod", "Pow", "LShift", "RShift", "BitOr", "BitXor", "BitAnd"}
OPS["BinOp"] = OPS["AugAssign"] = BINARY


def whole(x, low, limit):
    """The whole number of a JSON value in low..limit-1, or None."""
    if isinstance(x, Num) and x.text.isdigit() and len(x.text) <= 20 and low <= int(x.text) < limit:
        return int(x.text)
    return None


class Bad(Exception):
    pass


def row_form(row):
    """The row as [kind, loc, [(field, letter, value)]], numbers plain; Bad where it has not its form."""
    if not isinstance(row, list) or not row or not isinstance(row[0], str):
        raise Bad
    kind = row[0]

    def number(x, low=0, limit=2**64):
        n = whole(x, low, limit)
        if n is None:
            raise Bad
        return n

    def listed(x, f):
        if not isinstance(x, list):
            raise Bad
        return [f(y) for y in x]
    if kind in CONSTANT_KINDS:
        if kind in ("none", "true", "false", "ellipsis"):
            if len(row) != 1:
                raise Bad
            return kind, None, []
        if len(row) != 2:
            raise Bad
        if kind == "tuple":
            return kind, None, [("v", "c*", listed(row[1], number))]
        if not isinstance(row[1], str):
            raise Bad
        if kind == "int" and not re.fullmatch("-?[0-9]+", row[1]):
            raise Bad
        if kind == "bytes" and not re.fullmatch("(?:[0-9a-f]{2})*", row[1]):
            raise Bad
        return kind, None, [("v", "text", row[1])]
    if kind not in SCHEMA:
        raise Bad
    group, located, fields = SCHEMA[kind]
    at = 3 if located else 1
    if len(row) != at + len(fields):
        raise Bad
    loc = (number(row[1], 1, 2**32), number(row[2], 1, 2**32)) if located else None

    def one(letter, x):
        if letter == "n":
            if not isinstance(x, str):
                raise Bad
            return x
        if letter == "b":
            if not isinstance(x, bool):
                raise Bad
            return x
        if letter == "u":
            return number(x, 0, 2**32)
        if letter == "op":
            if not isinstance(x, str) or x not in OPS[kind]:
                raise Bad
            return x
        return number(x)
    out = []
    for (name, letter), x in zip(fields, row[at:]):
        base = letter.rstrip("?*")
        if letter.endswith("*"):
            null = letter.endswith("?*")
            out.append((name, letter, listed(x, lambda y: None if null and y is None else one(base, y))))
        else:
            out.append((name, letter, None if letter.endswith("?") and x is None else one(base, x)))
    return kind, loc, out


def read_rows(data: bytes):
    try:
        value = parse_json(data)
    except NotJson:
        return RowsError("NotJson")
    if not isinstance(value, list) or not value:
        return RowsError("NotRows")
    made, depth, named = [], [], set()
    for r, row in enumerate(value):
        try:
            kind, loc, fields = row_form(row)
        except Bad:
            return RowsError("WrongRow", r)
        if kind == "int":
            text = fields[0][2]
            digits = text.lstrip("-").lstrip("0") or "0"
            if len(digits) > 40 or not -2**127 <= (int(digits) if text[0] != "-" else -int(digits)) < 2**127:
                return RowsError("WideInteger", r)
        groups = dict(LETTER_GROUP)
        refs = [(LETTER_GROUP[l.rstrip("?*")], i) for (_, l, v) in fields if l.rstrip("?*") in groups
                for i in (v if isinstance(v, list) else [v]) if i is not None]
        if any(i >= r for _, i in refs):
            return RowsError("LaterRow", r)
        if any(made[i].group != g for g, i in refs):
            return RowsError("WrongKind", r)
        for _, i in refs:
            if i in named:
                return RowsError("NamedTwice", r)
            named.add(i)
        levels = 1
        if kind == "With":
            levels = max(1, len(dict((n, v) for n, _, v in fields)["items"]))
        d = levels + max([depth[i] for _, i in refs], default=0)
        if d >= 2**10:
            return RowsError("TooDeep", r)
        depth.append(d)
        f = {}
        for n, l, v in fields:
            if l.rstrip("?*") in groups:
                f[n] = [None if i is None else made[i] for i in v] if isinstance(v, list) else None if v is None else made[v]
            else:
                f[n] = v
        if kind == "int":
            f["v"] = (-1 if f["v"][0] == "-" else 1) * int(digits)
        elif kind == "bytes":
            f["v"] = bytes.fromhex(f["v"])
        elif kind in ("none", "true", "false", "ellipsis"):
            f["v"] = None
        made.append(Node(kind, loc, f))
    if made[-1].group != "Mod":
        return RowsError("NoMod")
    for r in range(len(made) - 1):
        if r not in named:
            return RowsError("NotNamed", r)
    return made[-1]
