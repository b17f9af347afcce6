"""Nesting, size and wrong shapes of a tree, the texts of annotations, names of kinds in messages, and mangling."""
from tree import SCHEMA, LETTER_GROUP, CONSTANT_KINDS

NESTING_LIMIT, SIZE_LIMIT = 2**10, 2**22


def mangle(class_name, name):
    if class_name is None or not name.startswith("__") or name.endswith("__") or "." in name:
        return name
    return "_" + (class_name[1:] if class_name.startswith("_") else class_name) + name


def children(n):
    """The child nodes in field order."""
    if n.kind in CONSTANT_KINDS:
        return list(n.v) if n.kind == "tuple" else []
    out = []
    for name, letter in SCHEMA[n.kind][2]:
        if letter.rstrip("?*") not in LETTER_GROUP:
            continue
        v = n.f[name]
        out += [c for c in (v if isinstance(v, list) else [v]) if c is not None]
    return out


def walk(n):
    stack = [n]
    while stack:
        x = stack.pop()
        yield x
        stack.extend(reversed(children(x)))


def nesting(n):
    levels = max(1, len(n.items)) if n.kind == "With" else 1
    return levels + max([nesting(c) for c in children(n)], default=0)


def identifiers(n):
    """(text, is_path) per identifier of the node, in field order; is_path is filled in for ImportFrom's module."""
    if n.kind in CONSTANT_KINDS:
        return []
    out = []
    for name, letter in SCHEMA[n.kind][2]:
        if letter.rstrip("?*") != "n":
            continue
        v = n.f[name]
        for x in (v if isinstance(v, list) else [v]):
            if x is not None:
                out.append((x, n.kind == "ImportFrom"))
    return out


def size(n):
    total = 0
    for x in walk(n):
        names = identifiers(x)
        total += 1 + len(names)
        if x.kind == "ImportFrom" and x.module is not None:
            total += x.module.count(".")
        if x.kind == "Import":
            total += sum(a.f["name"].count(".") for a in x.names)
        if x.kind == "Compare":
            total += len(x.ops)
        if x.kind == "Dict":
            total += sum(k is None for k in x.f["keys"])
    return total


COMPREHENSIONS = ("ListComp", "SetComp", "GeneratorExp", "DictComp")


def parameters(a):
    """All parameters (Arg nodes) in the order in which they are registered."""
    return ([d.f["def"] for d in a.posonlyargs + a.args + a.kwonlyargs]
            + ([a.vararg] if a.vararg else []) + ([a.kwarg] if a.kwarg else []))


def shape_of(n, mode, class_name, parent):
    """The first wrong shape of one node."""
    k = n.kind
    if k == "FunctionType" or (k == "Interactive" and mode not in ("single", "block")):
        return "WrongMode"
    if (k == "BoolOp" and not n.f["values"]) or (k == "Compare" and not n.ops):
        return "NoOperand"
    if k == "Assign" and not n.targets:
        return "NoTarget"
    if k in COMPREHENSIONS and not n.generators:
        return "NoGenerator"
    if k == "Compare" and len(n.ops) != len(n.comparators):
        return "UnevenLists"
    if k == "Dict" and len(n.f["keys"]) != len(n.f["values"]):
        return "UnevenLists"
    if k == "Raise" and n.cause is not None and n.exc is None:
        return "CauseAlone"
    if k == "ExceptHandler" and n.name is not None and n.type_ is None:
        return "NameWithoutType"
    # (text, may hold dots)
    ids = [(t, p) for t, p in identifiers(n)]
    if k == "Alias":
        ids = [(n.f["name"], parent is not None and parent.kind == "Import")] + ([(n.asname, False)] if n.asname is not None else [])
    for text, path in ids:
        if text == "" or (path and "" in text.split(".")):
            return "EmptyName"
    if any("." in t for t, path in ids if not path):
        return "StrayDot"
    if k == "Arguments":
        ps = [mangle(class_name, p.arg) for p in parameters(n)]
        if len(set(ps)) < len(ps):
            return "SameParameter"
        seen = False
        for d in n.posonlyargs + n.args:
            if d.default is not None:
                seen = True
            elif seen:
                return "DefaultOrder"
    return None


def valid(n, mode="exec", class_name=None, parent=None):
    """The first wrong shape: a node before its children, children in field order."""
    bad = shape_of(n, mode, class_name, parent)
    if bad:
        return bad
    if n.kind in CONSTANT_KINDS:
        return None  # constants bear no shape
    for name, letter in SCHEMA[n.kind][2]:
        if letter.rstrip("?*") not in LETTER_GROUP:
            continue
        v = n.f[name]
        inner = n.name if n.kind == "ClassDef" and name == "body" else class_name
        for c in (v if isinstance(v, list) else [v]):
            if c is not None:
                bad = valid(c, mode, inner, n)
                if bad:
                    return bad
    return None


# ---- names of kinds
_NAMES = {"BoolOp": "operator", "BinOp": "operator", "UnaryOp": "operator", "Subscript": "subscript", "Await": "await expression",
          "Yield": "yield expression", "YieldFrom": "yield expression", "Compare": "comparison", "Attribute": "attribute",
          "Call": "function call", "List": "list", "Tuple": "tuple", "Dict": "dict display", "Set": "set display",
          "ListComp": "list comprehension", "SetComp": "set comprehension", "DictComp": "dict comprehension",
          "GeneratorExp": "generator expression", "Starred": "starred", "Slice": "slice", "FormattedValue": "f-string expression",
          "Name": "name", "Lambda": "lambda", "IfExp": "conditional expression", "NamedExpr": "named expression"}


def python_name(e):
    if e.kind == "Constant":
        return {"str": "literal", "bytes": "literal", "int": "literal", "tuple": "tuple", "true": "True", "false": "False",
                "none": "None", "ellipsis": "ellipsis"}[e.value.kind]
    if e.kind == "JoinedStr":
        return "f-string expression" if any(v.kind == "JoinedStr" for v in e.f["values"]) else "literal"
    return _NAMES[e.kind]


# ---- texts of constants
def quote(t):
    out = []
    for c in t:
        if c in "'\\":
            out.append("\\" + c)
        elif ord(c) < 0x20 or ord(c) == 0x7F:
            out.append("\\x%02x" % ord(c))
        else:
            out.append(c)
    return "'" + "".join(out) + "'"


def quote_bytes(b):
    out = []
    for x in b:
        if x in b"'\\":
            out.append("\\" + chr(x))
        elif 0x20 <= x <= 0x7E:
            out.append(chr(x))
        else:
            out.append("\\x%02x" % x)
    return "b'" + "".join(out) + "'"


def constant_text(c):
    tag = c[0]
    if tag == "int":
        return str(c[1])
    if tag == "str":
        return quote(c[1])
    if tag == "bytes":
        return quote_bytes(c[1])
    if tag == "tuple":
        return "(" + ", ".join(constant_text(x) for x in c[1]) + ("," if len(c[1]) == 1 else "") + ")"
    if tag == "code":
        return "<code " + quote(c[1].obj_name) + ">"
    return {"none": "None", "true": "True", "false": "False", "ellipsis": "Ellipsis"}[tag]


# ---- texts of annotations
class FString(Exception):
    pass


_BIN = {"BitOr": ("|", 7), "BitXor": ("^", 8), "BitAnd": ("&", 9), "LShift": ("<<", 10), "RShift": (">>", 10), "Add": ("+", 11), "Sub": ("-", 11),
        "Mult": ("*", 12), "MatMult": ("@", 12), "Div": ("/", 12), "FloorDiv": ("//", 12), "Mod": ("%", 12)}
_CMP = {"Eq": "==", "NotEq": "!=", "Lt": "<", "LtE": "<=", "Gt": ">", "GtE": ">=", "Is": "is", "IsNot": "is not", "In": "in", "NotIn": "not in"}


def annotation_text(e):
    if any(x.kind in ("JoinedStr", "FormattedValue") for x in walk(e)):
        raise FString
    return show(e, 2)


def show(e, p):
    text, level = _text(e)
    return "(" + text + ")" if level < p else text


def _text(e):
    from code_objects import constant_of_node
    k = e.kind

    def many(xs, p=2):
        return ", ".join(show(x, p) for x in xs)
    if k == "Name":
        return e.id, 16
    if k == "Constant":
        c = constant_of_node(e.value)
        if c[0] == "ellipsis":
            return "...", 16
        return constant_text(c), 16 if c[0] != "int" else 15 if c[1] >= 0 else 13
    if k == "Attribute":
        return show(e.value, 16) + "." + e.attr, 16
    if k == "Subscript":
        return show(e.value, 16) + "[" + show(e.slice, 1) + "]", 16
    if k == "Starred":
        return "*" + show(e.value, 7), 16
    if k == "Call":
        parts = [show(a, 2) for a in e.args]
        parts += ["**" + show(w.value, 7) if w.arg is None else w.arg + "=" + show(w.value, 2) for w in e.keywords]
        return show(e.func, 16) + "(" + ", ".join(parts) + ")", 16
    if k == "BinOp":
        if e.op == "Pow":
            return show(e.left, 15) + " ** " + show(e.right, 13), 14
        sign, level = _BIN[e.op]
        return show(e.left, level) + " " + sign + " " + show(e.right, level + 1), level
    if k == "UnaryOp":
        if e.op == "Not":
            return "not " + show(e.operand, 5), 5
        return {"UAdd": "+", "USub": "-", "Invert": "~"}[e.op] + show(e.operand, 13), 13
    if k == "BoolOp":
        word, level = (" or ", 3) if e.op == "Or" else (" and ", 4)
        return word.join(show(v, level + 1) for v in e.f["values"]), level
    if k == "Compare":
        return show(e.left, 7) + "".join(" " + _CMP[o] + " " + show(c, 7) for o, c in zip(e.ops, e.comparators)), 6
    if k == "IfExp":
        return show(e.body, 3) + " if " + show(e.test, 3) + " else " + show(e.orelse, 2), 2
    if k == "Lambda":
        ps = parameters_text(e.args)
        return "lambda" + (" " + ps if ps else "") + ": " + show(e.body, 2), 2
    if k == "Await":
        return "await " + show(e.value, 16), 15
    if k == "Yield":
        return "(yield)" if e.value is None else "(yield " + show(e.value, 1) + ")", 16
    if k == "YieldFrom":
        return "(yield from " + show(e.value, 2) + ")", 16
    if k == "NamedExpr":
        return "(" + show(e.target, 16) + " := " + show(e.value, 2) + ")", 16
    if k == "List":
        return "[" + many(e.elts) + "]", 16
    if k == "Set":
        return "{" + many(e.elts) + "}" if e.elts else "{*()}", 16
    if k == "Dict":
        return "{" + ", ".join("**" + show(v, 7) if q is None else show(q, 2) + ": " + show(v, 2) for q, v in zip(e.f["keys"], e.f["values"])) + "}", 16
    if k == "Tuple":
        if not e.elts:
            return "()", 16
        return many(e.elts) + ("," if len(e.elts) == 1 else ""), 1
    if k == "Slice":
        return ((show(e.lower, 2) if e.lower else "") + ":" + (show(e.upper, 2) if e.upper else "")
                + (":" + show(e.step, 2) if e.step else "")), 1
    head = show(e.key, 2) + ": " + show(e.value, 2) if k == "DictComp" else show(e.elt, 2)
    for g in e.generators:
        head += (" async for " if g.is_async else " for ") + show(g.target, 1) + " in " + show(g.iter, 3)
        head += "".join(" if " + show(c, 3) for c in g.ifs)
    left, right = {"ListComp": "[]", "SetComp": "{}", "DictComp": "{}", "GeneratorExp": "()"}[k]
    return left + head + right, 16


def parameters_text(a):
    def one(d):
        return d.f["def"].arg + ("" if d.default is None else "=" + show(d.default, 2))
    parts = [one(d) for d in a.posonlyargs]
    if parts:
        parts.append("/")
    parts += [one(d) for d in a.args]
    if a.vararg:
        parts.append("*" + a.vararg.arg)
    elif a.kwonlyargs:
        parts.append("*")
    parts += [one(d) for d in a.kwonlyargs]
    if a.kwarg:
        parts.append("**" + a.kwarg.arg)
    return ", ".join(parts)
