#!/usr/bin/env python3
"""The inputs of hostile.py: what is no rows, trees that are refused, and trees that nest as deep as is taken.

usage: hostile_cases.py

It writes how many inputs there are of each sort. hostile.py runs them.

A tree is a tuple of a word and its fields, as in docs/ROWS.md, with a tree in the place of the number of its row. What is
wanted of each is written here from the definitions; test_hostile.py holds it beside what tools/model answers.
"""
import argparse
import json

# The place in a tree of another that it is made around.
HOLE = object()

# How deep a tree may nest.
DEEPEST = 1023

NO_PARAMETERS = ("Arguments", [], [], None, [], None)
PASS = ("Pass", 1, 1)


def rows_of(tree, hole=None, rows=None):
    """The rows of a tree, behind those that are there. HOLE in it is the row of the number `hole`."""
    rows = [] if rows is None else rows

    def number(part):
        if part is HOLE:
            return hole
        if isinstance(part, list):
            return [number(it) for it in part]
        if isinstance(part, tuple):
            rows.append([number(it) for it in part])
            return len(rows) - 1
        return part

    number(tree)
    return rows


def text_of(rows):
    """Rows as the bytes of an input."""
    return json.dumps(rows, separators=(",", ":"), ensure_ascii=False).encode("utf-8")


def name(column=1, text="a"):
    """A name at a column of the first line."""
    return ("Name", 1, column, text)


def module(*body):
    """A program of these statements."""
    return ("Module", list(body))


def valued(value):
    """A program of one statement that evaluates this."""
    return module(("Expr", 1, 1, value))


def function(*body, **other):
    """A function, with parameters and type parameters where they are given."""
    return ("FunctionDef", 1, 1, "f", other.get("args", NO_PARAMETERS), list(body), [], None, other.get("params", []))


def class_of(*body):
    """A class of these statements."""
    return ("ClassDef", 1, 1, "A", [], [], list(body), [], [])


def parameter(text, default=None):
    """A parameter, with its default or without."""
    return ("ArgWithDefault", ("Arg", 1, 7, text, None), default)


def parameters(*args, **other):
    """Parameters, of which those by place alone, the two that take what is left and those by name alone are named here."""
    return ("Arguments", other.get("first", []), list(args), other.get("vararg"), other.get("named", []), other.get("kwarg"))


def lambda_of(args, value=("Name", 1, 9, "a")):
    """A lambda with these parameters."""
    return ("Lambda", 1, 1, args, value)


def clause(target=("Name", 1, 5, "b"), within=("Name", 1, 7, "c"), tests=(), is_async=False):
    """A clause of a comprehension."""
    return ("Comprehension", target, within, list(tests), is_async)


def list_of(element, *clauses):
    """A list comprehension."""
    return ("ListComp", 1, 1, element, list(clauses))


def walrus(text="a", column=3):
    """A named expression, with its name at a column."""
    return ("NamedExpr", 1, column, name(column, text), name(column + 5, "v"))


def imported(text, alias=None):
    """An import of one path."""
    return ("Import", 1, 1, [("Alias", text, alias)])


def imported_from(path, *names, **other):
    """An import of names from a module."""
    return ("ImportFrom", other.get("row", 1), 1, path, [("Alias", it, None) for it in names], other.get("level", 0))


# Inputs that are no rows of a tree, and what is told behind `input: `. Where two things are wrong, the first of
# docs/ROWS.md decides.
INPUTS = [
    (b"", "not JSON"),
    (b" \t\r\n", "not JSON"),
    (b"\x00", "not JSON"),
    (b"\xff", "not JSON"),
    (b"\xef\xbb\xbf" + b'[["Module",[]]]', "not JSON"),
    (b'[["Name",1,1,"\xc0\x80"],["Expression",0]]', "not JSON"),
    (b'[["Name",1,1,"\xed\xa0\x80"],["Expression",0]]', "not JSON"),
    (b'[["Name",1,1,"\xf4\x90\x80\x80"],["Expression",0]]', "not JSON"),
    (b'[["Name",1,1,"\xe2\x82"],["Expression",0]]', "not JSON"),
    (b'[["Name",1,1,"\\ud800"],["Expression",0]]', "not JSON"),
    (b'[["Name",1,1,"a\nb"],["Expression",0]]', "not JSON"),
    (b'[["Module",[]]', "not JSON"),
    (b'[["Module",[]]]]', "not JSON"),
    (b'[["Module",[]],]', "not JSON"),
    (b'[["Module",[]]] x', "not JSON"),
    (b'[["Name",01,1,"a"],["Expression",0]]', "not JSON"),
    (b'{"":0', "not JSON"),
    (b"[" * 128 + b"]" * 128, "not JSON"),
    (b"[" * 1000000, "not JSON"),
    (b'{"":' * 1000000, "not JSON"),
    (b"{}", "not rows"),
    (b'{"":[["Module",[]]]}', "not rows"),
    (b"[]", "not rows"),
    (b"null", "not rows"),
    (b"1e308", "not rows"),
    (b"1e309", "not JSON"),
    (b"-" + b"9" * 308, "not rows"),
    (b"-" + b"9" * 309, "not JSON"),
    (b'[["Name",1e309,1,"a"],["Expression",0]]', "not JSON"),
    (b"-0", "not rows"),
    (b'"Module"', "not rows"),
    (b"[" * 127 + b"]" * 127, "row 0: wrong form"),
    (b"[[]]", "row 0: wrong form"),
    (b"[{}]", "row 0: wrong form"),
    (b'["Module"]', "row 0: wrong form"),
    (b'[["module",[]]]', "row 0: wrong form"),
    (b'[["Module"]]', "row 0: wrong form"),
    (b'[["Module",[],[]]]', "row 0: wrong form"),
    (b'[["Module",0]]', "row 0: wrong form"),
    (b'[["Name",0,1,"a"],["Expression",0]]', "row 0: wrong form"),
    (b'[["Name",1,0,"a"],["Expression",0]]', "row 0: wrong form"),
    (b'[["Name",4294967296,1,"a"],["Expression",0]]', "row 0: wrong form"),
    (b'[["Name",1.0,1,"a"],["Expression",0]]', "row 0: wrong form"),
    (b'[["Name",1,1,null],["Expression",0]]', "row 0: wrong form"),
    (b'[["Pass",1,1],["Module",[-0]]]', "row 1: wrong form"),
    (b'[["Pass",1,1],["Module",[0.0]]]', "row 1: wrong form"),
    (b'[["Pass",1,1],["Module",[18446744073709551616]]]', "row 1: wrong form"),
    (b'[["Alias","a",null],["ImportFrom",1,1,null,[0],4294967296],["Module",[1]]]', "row 1: wrong form"),
    (b'[["int",""],["Constant",1,1,0],["Expression",1]]', "row 0: wrong form"),
    (b'[["int","+1"],["Constant",1,1,0],["Expression",1]]', "row 0: wrong form"),
    (b'[["bytes","0A"],["Constant",1,1,0],["Expression",1]]', "row 0: wrong form"),
    (b'[["bytes","000"],["Constant",1,1,0],["Expression",1]]', "row 0: wrong form"),
    (b'[["Pass",1,1],["Module",[0]],["Pass"]]', "row 2: wrong form"),
    (b'[["int","170141183460469231731687303715884105728"],["Constant",1,1,0],["Expression",1]]', "row 0: integer too wide"),
    (b'[["int","-170141183460469231731687303715884105729"],["Constant",1,1,0],["Expression",1]]', "row 0: integer too wide"),
    (b'[["int","' + b"9" * 1000000 + b'"],["Constant",1,1,0],["Expression",1]]', "row 0: integer too wide"),
    (b'[["Pass",1,1],["Module",[1]]]', "row 1: later row"),
    (b'[["Pass",1,1],["Module",[2]]]', "row 1: later row"),
    (b'[["Pass",1,1],["Module",[18446744073709551615]]]', "row 1: later row"),
    (b'[["Expr",1,1,1],["Name",1,1,"a"],["Module",[0]]]', "row 0: later row"),
    (b'[["Pass",1,1],["Expression",0]]', "row 1: wrong kind"),
    (b'[["none"],["Expression",0]]', "row 1: wrong kind"),
    (b'[["Module",[]],["Module",[0]]]', "row 1: wrong kind"),
    (b'[["Pass",1,1],["Module",[0,0]]]', "row 1: named twice"),
    (b'[["Name",1,1,"a"],["BinOp",1,1,0,"Add",0],["Expression",1]]', "row 1: named twice"),
    (b'[["Name",1,1,"a"],["Expr",1,1,0],["Expr",2,1,0],["Module",[1,2]]]', "row 2: named twice"),
    (b'[["Pass",1,1]]', "no module"),
    (b'[["Module",[]],["Pass",1,1]]', "no module"),
    (b'[["Module",[]],["Module",[]]]', "row 0: not named"),
    (b'[["Name",1,1,"a"],["Name",1,1,"b"],["Expr",1,1,0],["Module",[2]]]', "row 1: not named"),
    (b'[["Pass",1,1],["Pass",1,1],["Module",[]]]', "row 0: not named"),
]

# The expressions that take no value, and what they are called where one is stored to them, and where they are deleted.
TARGETS = [
    (("BoolOp", 1, 5, "And", [name()]), "operator", "operator"),
    (("NamedExpr", 1, 5, name(), name()), "named expression", "named expression"),
    (("BinOp", 1, 5, name(), "Add", name()), "operator", "expression"),
    (("UnaryOp", 1, 5, "Not", name()), "operator", "expression"),
    (("Lambda", 1, 5, NO_PARAMETERS, name()), "lambda", "lambda"),
    (("IfExp", 1, 5, name(), name(), name()), "conditional expression", "conditional expression"),
    (("Dict", 1, 5, [], []), "dict display", "dict display"),
    (("Set", 1, 5, [name()]), "set display", "set display"),
    (("ListComp", 1, 5, name(), [clause()]), "list comprehension", "list comprehension"),
    (("SetComp", 1, 5, name(), [clause()]), "set comprehension", "set comprehension"),
    (("DictComp", 1, 5, name(), name(), [clause()]), "dict comprehension", "dict comprehension"),
    (("GeneratorExp", 1, 5, name(), [clause()]), "generator expression", "generator expression"),
    (("Await", 1, 5, name()), "await expression", "await expression"),
    (("Yield", 1, 5, None), "yield expression", "yield expression"),
    (("YieldFrom", 1, 5, name()), "yield expression", "yield expression"),
    (("Compare", 1, 5, name(), ["Lt"], [name()]), "comparison", "comparison"),
    (("Call", 1, 5, name(), [], []), "function call", "function call"),
    (("FormattedValue", 1, 5, name(), "None", None), "f-string expression", "f-string expression"),
    (("JoinedStr", 1, 5, []), "literal", "literal"),
    (("JoinedStr", 1, 5, [("FormattedValue", 1, 5, name(), "None", None)]), "literal", "literal"),
    (("JoinedStr", 1, 5, [("JoinedStr", 1, 5, [])]), "f-string expression", "f-string expression"),
    (("Constant", 1, 5, ("none",)), "None", "None"),
    (("Constant", 1, 5, ("true",)), "True", "True"),
    (("Constant", 1, 5, ("false",)), "False", "False"),
    (("Constant", 1, 5, ("ellipsis",)), "ellipsis", "ellipsis"),
    (("Constant", 1, 5, ("int", "1")), "literal", "literal"),
    (("Constant", 1, 5, ("str", "x")), "literal", "literal"),
    (("Constant", 1, 5, ("bytes", "00")), "literal", "literal"),
    (("Constant", 1, 5, ("tuple", [])), "tuple", "tuple"),
    (("Slice", 1, 5, None, None, None), "slice", "slice"),
]

# The targets of other statements that take names and some more.
LIST, TUPLE, STARRED = ("List", 1, 5, [name()]), ("Tuple", 1, 5, [name()]), ("Starred", 1, 5, name())
SUBSCRIPT, ATTRIBUTE = ("Subscript", 1, 5, name(), name()), ("Attribute", 1, 5, name(), "b")


def target_cases():
    """Each expression that takes no value, as the target of each statement."""
    for tree, stored, deleted in TARGETS:
        yield module(("Assign", 1, 1, [tree], name(9))), "1:9 cannot assign to " + stored
        yield module(("Delete", 1, 1, [tree])), "1:1 cannot delete " + deleted
    for tree, stored in [(LIST, "list"), (TUPLE, "tuple"), (STARRED, "starred"), (TARGETS[0][0], "operator")]:
        yield module(("AugAssign", 1, 1, tree, "Add", name(9))), "1:1 cannot assign to " + stored
    for tree, stored in [(LIST, "list"), (TUPLE, "tuple"), (STARRED, "starred"), (SUBSCRIPT, "subscript"), (ATTRIBUTE, "attribute")]:
        yield module(("TypeAlias", 1, 1, tree, [], name(9))), "1:1 cannot assign to " + stored
    yield module(("Delete", 1, 1, [STARRED])), "1:1 cannot delete starred"
    call, text = ("Call", 1, 5, name(), [], []), "cannot assign to function call"
    yield module(("Assign", 1, 1, [name(), call], name(9))), "1:9 " + text
    yield module(("Assign", 1, 1, [("Tuple", 1, 1, [name(), ("List", 1, 2, [call])])], name(9))), "1:9 " + text
    yield module(("AnnAssign", 1, 1, call, name(7), name(9), False)), "1:9 " + text
    yield module(("For", 1, 1, call, name(9), [PASS], [])), "1:9 " + text
    yield module(("With", 1, 1, [("WithItem", name(9), call)], [PASS])), "1:5 " + text
    yield valued(("NamedExpr", 1, 2, call, name(9))), "1:9 " + text
    yield valued(list_of(name(), clause(target=call))), "1:1 " + text


# Trees of a wrong shape. The shapes of one node come in this order, and a node before those within it.
SHAPES = [
    (("FunctionType", [], name()), "WrongMode"),
    (("Interactive", []), "WrongMode"),
    (valued(("BoolOp", 1, 1, "Or", [])), "NoOperand"),
    (valued(("Compare", 1, 1, name(), [], [])), "NoOperand"),
    (valued(("Compare", 1, 1, name(), [], [name()])), "NoOperand"),
    (module(("Assign", 1, 1, [], name())), "NoTarget"),
    (valued(("ListComp", 1, 1, name(), [])), "NoGenerator"),
    (valued(("SetComp", 1, 1, name(), [])), "NoGenerator"),
    (valued(("DictComp", 1, 1, name(), name(), [])), "NoGenerator"),
    (valued(("GeneratorExp", 1, 1, name(), [])), "NoGenerator"),
    (valued(("Compare", 1, 1, name(), ["Lt"], [])), "UnevenLists"),
    (valued(("Compare", 1, 1, name(), ["Lt"], [name(), name()])), "UnevenLists"),
    (valued(("Dict", 1, 1, [name()], [])), "UnevenLists"),
    (valued(("Dict", 1, 1, [None], [])), "UnevenLists"),
    (valued(("Dict", 1, 1, [], [name()])), "UnevenLists"),
    (module(("Raise", 1, 1, None, name())), "CauseAlone"),
    (module(("Try", 1, 1, [PASS], [("ExceptHandler", None, "e", [PASS])], [], [])), "NameWithoutType"),
    (module(("TryStar", 1, 1, [PASS], [("ExceptHandler", None, "e", [PASS])], [], [])), "NameWithoutType"),
    (valued(lambda_of(parameters(parameter("x"), parameter("x")))), "SameParameter"),
    (valued(lambda_of(parameters(parameter("x"), first=[parameter("x")]))), "SameParameter"),
    (valued(lambda_of(parameters(parameter("x"), named=[parameter("x")]))), "SameParameter"),
    (valued(lambda_of(parameters(parameter("x"), vararg=("Arg", 1, 7, "x", None)))), "SameParameter"),
    (valued(lambda_of(parameters(kwarg=("Arg", 1, 7, "x", None), vararg=("Arg", 1, 7, "x", None)))), "SameParameter"),
    (module(class_of(function(PASS, args=parameters(parameter("__x"), parameter("_A__x"))))), "SameParameter"),
    (valued(lambda_of(parameters(parameter("x", name()), parameter("y")))), "DefaultOrder"),
    (valued(lambda_of(parameters(parameter("y"), first=[parameter("x", name())]))), "DefaultOrder"),
    (valued(lambda_of(parameters(parameter("x", name()), parameter("x")))), "SameParameter"),
    (valued(("Dict", 1, 1, [("Compare", 1, 1, name(), [], [])], [])), "UnevenLists"),
    (valued(("Compare", 1, 1, ("BoolOp", 1, 1, "Or", []), ["Lt"], [])), "UnevenLists"),
    (module(("Break", 1, 1), ("Expr", 1, 1, ("BoolOp", 1, 1, "Or", []))), "NoOperand"),
]  # fmt: skip


def places_of_names(text):
    """A tree for each field of each kind that holds a name, with this one there. Behind it stands whether it may be a path."""
    for kind in "FunctionDef", "AsyncFunctionDef":
        yield module((kind, 1, 1, text, NO_PARAMETERS, [PASS], [], None, [])), False
    yield module(("ClassDef", 1, 1, text, [], [], [PASS], [], [])), False
    yield module(("Global", 1, 1, ["a", text])), False
    yield module(function(("Nonlocal", 1, 1, [text]))), False
    yield valued(("Name", 1, 1, text)), False
    yield valued(("Attribute", 1, 1, name(), text)), False
    yield valued(lambda_of(parameters(parameter(text)))), False
    yield valued(("Call", 1, 1, name(), [], [("Keyword", text, name())])), False
    yield module(("Try", 1, 1, [PASS], [("ExceptHandler", name(), text, [PASS])], [], [])), False
    yield module(imported("a", text)), False
    yield module(imported_from("m", text)), False
    yield module(("ImportFrom", 1, 1, "m", [("Alias", "a", text)], 0)), False
    for kind in ("TypeVar", 1, 1, text, None), ("ParamSpec", 1, 1, text), ("TypeVarTuple", 1, 1, text):
        yield module(function(PASS, params=[kind])), False
    yield module(imported(text)), True
    yield module(imported_from(text, "a")), True


def name_cases():
    """Empty names, names with a dot, and paths with an empty part."""
    for tree, _ in places_of_names(""):
        yield tree, "EmptyName"
    for tree, is_path in places_of_names("a.b"):
        if not is_path:
            yield tree, "StrayDot"
    for text in "a.", ".a", "a..b", ".":
        for tree, is_path in places_of_names(text):
            yield tree, "EmptyName" if is_path else "StrayDot"


def declaration_cases():
    """What is refused where a name is declared that its scope has already."""
    for kind, word in ("Global", "global"), ("Nonlocal", "nonlocal"):
        declared = (kind, 2, 3, ["x"])
        used, stored = ("Expr", 1, 1, name(5, "x")), ("Assign", 1, 1, [name(5, "x")], name())
        noted = ("AnnAssign", 1, 1, name(5, "x"), name(), None, True)
        yield module(function(declared, args=parameters(parameter("x")))), "2:3 name 'x' is parameter and " + word
        yield module(function(used, declared)), "2:3 name 'x' is used prior to %s declaration" % word
        yield module(function(noted, declared)), "2:3 annotated name 'x' can't be " + word
        yield module(function(stored, declared)), "2:3 name 'x' is assigned to before %s declaration" % word
    yield module(("Nonlocal", 1, 1, ["x"])), "1:1 cannot define nonlocal 'x' at top level."
    yield module(("Global", 1, 1, ["x"]), ("Nonlocal", 2, 1, ["x"])), "-:- nonlocal x defined at place without an enclosing scope"
    yield module(function(("Nonlocal", 1, 1, ["x"]))), "-:- no binding for nonlocal 'x' found"
    yield module(class_of(("Nonlocal", 1, 1, ["x"]))), "-:- no binding for nonlocal 'x' found"


ITERABLE = "assignment expression cannot be used in a comprehension iterable expression"
CLASS_WALRUS = "assignment expression within a comprehension cannot be used in a class body"
NOT_IMPLEMENTED = "RustPython does not implement this feature yet"

TYPE_VAR = ("TypeVar", 1, 8, "T", None)

# What scopes refuse.
SCOPES = [
    (valued(list_of(walrus("b", 2), clause())), "1:2 " + ITERABLE),
    (valued(list_of(name(), clause(within=walrus(column=7)))), "1:7 " + ITERABLE),
    (valued(list_of(name(), clause(), clause(within=walrus(column=11)))), "1:11 " + ITERABLE),
    (valued(list_of(list_of(walrus("b", 4), clause(target=name(9, "d"))), clause())), "-:- assignment expression cannot rebind comprehension iteration variable b"),
    (module(class_of(("Expr", 1, 1, list_of(walrus(), clause())))), "-:- " + CLASS_WALRUS),
    (module(("Match", 1, 1, name(7), [("MatchCase", [PASS])])), "1:7 match expression is not implemented yet"),
    (module(function(PASS, params=[TYPE_VAR, ("ParamSpec", 1, 11, "P")])), "1:11 type parameters are not supported yet"),
    (module(("TypeAlias", 1, 1, name(6, "A"), [("TypeVarTuple", 1, 8, "T")], name(11))), "1:8 type parameters are not supported yet"),
    (module(function(PASS, params=[TYPE_VAR, ("TypeVar", 1, 11, "T", None)])), "1:11 duplicate type parameter 'T'"),
    (module(function(PASS, params=[("TypeVar", 1, 7, "T", walrus(column=10))])), "1:10 named expression cannot be used in type parameters"),
    (module(function(PASS, params=[("TypeVar", 1, 7, "T", ("Yield", 1, 10, None))])), "1:10 yield expression cannot be used in type parameters"),
    (module(function(PASS, params=[("TypeVar", 1, 7, "T", ("YieldFrom", 1, 10, name()))])), "1:10 yield expression cannot be used in type parameters"),
    (
        module(class_of(("Assign", 1, 1, [name(5, "x")], name()), function(PASS, params=[("TypeVar", 1, 7, "T", name(10, "x"))]))),
        "-:- class name 'x' cannot be used in type parameters",
    ),
]  # fmt: skip


def debug_cases():
    """Each place in which `__debug__` would be stored or deleted."""
    debug, text = "__debug__", "cannot assign to __debug__"
    stored, attribute = name(5, debug), ("Attribute", 1, 5, name(7), debug)
    yield module(("Assign", 1, 1, [stored], name(9))), "1:9 " + text
    yield module(("Assign", 1, 1, [attribute], name(9))), "1:9 " + text
    yield module(("AugAssign", 1, 1, stored, "Add", name(9))), "1:9 " + text
    yield module(("AugAssign", 1, 1, attribute, "Add", name(9))), "1:1 " + text
    yield module(("AnnAssign", 1, 1, stored, name(7), name(9), True)), "1:9 " + text
    yield module(("For", 1, 1, stored, name(9), [PASS], [])), "1:9 " + text
    yield module(("With", 1, 1, [("WithItem", name(9), stored)], [PASS])), "1:5 " + text
    yield module(("Try", 1, 1, [PASS], [("ExceptHandler", name(9), debug, [PASS])], [], [])), "1:9 " + text
    yield valued(("NamedExpr", 1, 2, stored, name(9))), "1:9 " + text
    yield valued(list_of(name(), clause(target=stored))), "1:1 " + text
    yield module(("FunctionDef", 1, 1, debug, NO_PARAMETERS, [("Pass", 2, 2)], [], None, [])), "2:2 " + text
    yield module(("ClassDef", 1, 1, debug, [], [], [("Pass", 2, 2)], [], [])), "2:2 " + text
    yield module(("TypeAlias", 1, 1, stored, [], name(9))), "1:9 " + text
    yield module(imported(debug)), "1:1 " + text
    yield module(imported("a", debug)), "1:1 " + text
    yield module(imported_from("m", debug)), "1:1 " + text
    yield module(function(PASS, params=[("TypeVar", 1, 7, debug, None)])), "1:1 " + text
    yield valued(("Call", 1, 1, name(), [], [("Keyword", debug, name(9))])), "1:1 " + text
    for args in parameters(parameter(debug)), parameters(vararg=("Arg", 1, 7, debug, None)), parameters(named=[parameter(debug)]):
        yield valued(lambda_of(args)), "1:1 " + text
    yield module(("Delete", 1, 1, [stored])), "1:1 cannot delete __debug__"
    yield module(("Delete", 1, 1, [attribute])), "1:1 cannot delete __debug__"


def star_cases():
    """Stars where there is nothing that they gather, or too much."""
    starred, text = ("Starred", 1, 5, name(6)), "cannot use starred expression here"
    yield valued(starred), "1:5 " + text
    yield valued(("BinOp", 1, 1, starred, "Add", name())), "1:5 " + text
    yield module(("If", 1, 1, starred, [PASS], [])), "1:5 " + text
    yield valued(("DictComp", 1, 1, starred, name(), [clause()])), "1:5 " + text
    for kind in "ListComp", "SetComp", "GeneratorExp":
        yield valued((kind, 1, 1, starred, [clause()])), "1:5 iterable unpacking cannot be used in comprehension"
    yield module(("Assign", 1, 1, [starred], name(9))), "1:9 starred assignment target must be in a list or tuple"
    yield module(("Assign", 1, 1, [("Tuple", 1, 1, [starred, starred])], name(9))), "1:9 two starred expressions in assignment"
    for before, after in (256, 0), (0, 256):
        elements = [name()] * before + [starred] + [name()] * after
        yield module(("Assign", 1, 1, [("Tuple", 1, 3, elements)], name(9))), "1:3 too many expressions in star-unpacking assignment"


def import_cases():
    """Imports from the future, and of all names."""
    early, placed = ("Pass", 1, 1), "from __future__ imports must occur at the beginning of the file"
    future = imported_from("__future__", "division", row=2)
    yield module(early, future), "2:1 " + placed
    yield module(("If", 1, 1, name(), [future], [])), "2:1 " + placed
    yield module(function(future)), "2:1 " + placed
    yield module(early, imported_from("__future__", "division", row=2, level=3)), "2:1 " + placed
    yield module(early, imported_from("__future__", "foo", row=2)), "2:1 " + placed
    yield module(imported_from("__future__", "foo")), "1:1 future feature foo is not defined"
    yield module(imported_from("__future__", "division", "*")), "1:1 future feature * is not defined"
    yield module(imported_from("__future__", "Annotations")), "1:1 future feature Annotations is not defined"
    yield module(function(imported_from("m", "*"))), "1:1 import * only allowed at module level"
    yield module(function(imported_from("m", "a", "*"))), "1:1 import * only allowed at module level"


ASYNC = clause(is_async=True)
POSTPONED = imported_from("__future__", "annotations")

# What is refused while code is emitted, beside targets, stars, imports and `__debug__`.
EMITTED = [
    (module(("Break", 3, 5)), "3:5 'break' outside loop"),
    (module(("Continue", 3, 5)), "3:5 'continue' outside loop"),
    (module(("While", 1, 1, name(), [PASS], [("Break", 3, 5)])), "3:5 'break' outside loop"),
    (module(("For", 1, 1, name(), name(), [PASS], [("Continue", 3, 5)])), "3:5 'continue' outside loop"),
    (module(("While", 1, 1, name(), [function(("Break", 3, 5))], [])), "3:5 'break' outside loop"),
    (module(("While", 1, 1, name(), [class_of(("Continue", 3, 5))], [])), "3:5 'continue' outside loop"),
    (module(("Return", 1, 1, None)), "1:1 'return' outside function"),
    (module(function(class_of(("Return", 2, 1, name())))), "2:1 'return' outside function"),
    (valued(("Yield", 1, 3, None)), "1:3 'yield' outside function"),
    (module(class_of(("Expr", 1, 1, ("Yield", 1, 3, name())))), "1:3 'yield' outside function"),
    (valued(("YieldFrom", 1, 3, name())), "1:3 'yield from' outside function"),
    (module(function(PASS, args=parameters(parameter("x", ("Yield", 1, 9, None))))), "1:9 'yield' outside function"),
    (valued(("Await", 1, 3, name())), "1:3 'await' outside async function"),
    (module(function(("Expr", 1, 1, ("Await", 1, 3, name())))), "1:3 'await' outside async function"),
    (module(("With", 1, 3, [], [PASS])), "1:3 empty items on With"),
    (module(("With", 1, 3, [("WithItem", name(9), None)], [])), "1:3 empty body on With"),
    (module(("AsyncWith", 1, 3, [], [PASS])), "1:3 " + NOT_IMPLEMENTED),
    (module(("AsyncWith", 1, 3, [("WithItem", name(), None)], [PASS])), "1:3 " + NOT_IMPLEMENTED),
    (module(("AsyncFor", 1, 3, name(), name(), [PASS], [])), "1:3 " + NOT_IMPLEMENTED),
    (module(("AsyncFunctionDef", 1, 3, "f", NO_PARAMETERS, [PASS], [], None, [])), "1:3 " + NOT_IMPLEMENTED),
    (module(("TryStar", 1, 3, [PASS], [("ExceptHandler", name(), None, [PASS])], [], [])), "1:3 " + NOT_IMPLEMENTED),
    (valued(("ListComp", 1, 3, name(), [ASYNC])), "1:3 " + NOT_IMPLEMENTED),
    (valued(("SetComp", 1, 3, name(), [ASYNC])), "1:3 " + NOT_IMPLEMENTED),
    (valued(("DictComp", 1, 3, name(), name(), [ASYNC])), "1:3 " + NOT_IMPLEMENTED),
    (valued(("GeneratorExp", 1, 3, name(), [clause(), ASYNC])), "1:3 " + NOT_IMPLEMENTED),
    (valued(("GeneratorExp", 1, 3, ("Await", 1, 5, name()), [clause()])), "1:3 " + NOT_IMPLEMENTED),
    (module(POSTPONED, ("AnnAssign", 2, 1, name(), ("JoinedStr", 2, 4, []), None, True)), "2:1 " + NOT_IMPLEMENTED),
    (module(POSTPONED, ("AnnAssign", 2, 1, name(), ("Tuple", 2, 4, [("JoinedStr", 2, 5, [])]), None, True)), "2:1 " + NOT_IMPLEMENTED),
]  # fmt: skip


def refused_trees():
    """Trees that are refused in the mode `exec` at level 0, and the line that says why."""
    yield from ((tree, "-:- malformed tree: " + text) for tree, text in SHAPES)
    yield from ((tree, "-:- malformed tree: " + text) for tree, text in name_cases())
    yield from declaration_cases()
    yield from SCOPES
    yield from target_cases()
    yield from debug_cases()
    yield from star_cases()
    yield from import_cases()
    yield from EMITTED



# How expressions stand in one another: the kind, the field, and a tree with a hole.
WRAPPED = [
    ("BoolOp", ("BoolOp", 1, 1, "And", [name(), HOLE])),
    ("BoolOp and not", ("BoolOp", 1, 1, "Or", [name(), ("UnaryOp", 1, 1, "Not", HOLE)])),
    ("NamedExpr", ("NamedExpr", 1, 1, name(), HOLE)),
    ("BinOp, left", ("BinOp", 1, 1, HOLE, "Add", name())),
    ("BinOp, right", ("BinOp", 1, 1, name(), "Pow", HOLE)),
    ("UnaryOp", ("UnaryOp", 1, 1, "USub", HOLE)),
    ("Lambda", ("Lambda", 1, 1, NO_PARAMETERS, HOLE)),
    ("Lambda, default", ("Lambda", 1, 1, parameters(parameter("x", HOLE)), name())),
    ("IfExp, test", ("IfExp", 1, 1, HOLE, name(), name())),
    ("IfExp, body", ("IfExp", 1, 1, name(), HOLE, name())),
    ("IfExp, orelse", ("IfExp", 1, 1, name(), name(), HOLE)),
    ("Dict, key", ("Dict", 1, 1, [HOLE], [name()])),
    ("Dict, value", ("Dict", 1, 1, [name()], [HOLE])),
    ("Dict, unpacked", ("Dict", 1, 1, [None], [HOLE])),
    ("Set", ("Set", 1, 1, [HOLE])),
    ("Set, starred", ("Set", 1, 1, [("Starred", 1, 1, HOLE)])),
    ("ListComp", ("ListComp", 1, 1, HOLE, [clause()])),
    ("ListComp, iter", ("ListComp", 1, 1, name(), [clause(within=HOLE)])),
    ("SetComp", ("SetComp", 1, 1, HOLE, [clause()])),
    ("SetComp, iter", ("SetComp", 1, 1, name(), [clause(within=HOLE)])),
    ("GeneratorExp", ("GeneratorExp", 1, 1, HOLE, [clause()])),
    ("GeneratorExp, iter", ("GeneratorExp", 1, 1, name(), [clause(within=HOLE)])),
    ("ListComp, second iter", ("ListComp", 1, 1, name(), [clause(), clause(within=HOLE)])),
    ("ListComp, test", ("ListComp", 1, 1, name(), [clause(tests=[HOLE])])),
    ("DictComp, key", ("DictComp", 1, 1, HOLE, name(), [clause()])),
    ("DictComp, value", ("DictComp", 1, 1, name(), HOLE, [clause()])),
    ("Compare, left", ("Compare", 1, 1, HOLE, ["Lt"], [name()])),
    ("Compare, middle", ("Compare", 1, 1, name(), ["Lt", "Lt"], [HOLE, name()])),
    ("Compare, last", ("Compare", 1, 1, name(), ["Lt"], [HOLE])),
    ("Call, func", ("Call", 1, 1, HOLE, [], [])),
    ("Call, method", ("Call", 1, 1, ("Attribute", 1, 1, HOLE, "b"), [], [])),
    ("Call, argument", ("Call", 1, 1, name(), [HOLE], [])),
    ("Call, starred", ("Call", 1, 1, name(), [("Starred", 1, 1, HOLE)], [])),
    ("Call, keyword", ("Call", 1, 1, name(), [], [("Keyword", "k", HOLE)])),
    ("Call, unpacked", ("Call", 1, 1, name(), [], [("Keyword", None, HOLE)])),
    ("Attribute", ("Attribute", 1, 1, HOLE, "b")),
    ("Subscript, value", ("Subscript", 1, 1, HOLE, name())),
    ("Subscript, slice", ("Subscript", 1, 1, name(), HOLE)),
    ("Slice", ("Subscript", 1, 1, name(), ("Slice", 1, 1, None, HOLE, None))),
    ("List", ("List", 1, 1, [HOLE])),
    ("Tuple", ("Tuple", 1, 1, [HOLE])),
]  # fmt: skip

# F-strings, which have no text in a postponed annotation, and what stands in a function.
TEXTS = [
    ("JoinedStr", ("JoinedStr", 1, 1, [("FormattedValue", 1, 1, HOLE, "None", None)])),
    ("FormattedValue, spec", ("FormattedValue", 1, 1, ("Name", 1, 1, "a"), "Repr", ("JoinedStr", 1, 1, [HOLE]))),
]
YIELDING = [("Yield", ("Yield", 1, 1, HOLE)), ("YieldFrom", ("YieldFrom", 1, 1, HOLE))]

# How statements stand in one another, and the line where that is refused.
WITHIN = [
    ("FunctionDef", function(HOLE), None),
    ("FunctionDef, type parameter", function(HOLE, params=[TYPE_VAR]), None),
    ("FunctionDef, decorated", ("FunctionDef", 1, 1, "f", NO_PARAMETERS, [HOLE], [name()], None, []), None),
    ("ClassDef", class_of(HOLE), None),
    ("ClassDef, type parameter", ("ClassDef", 1, 1, "A", [], [], [HOLE], [], [TYPE_VAR]), None),
    ("FunctionDef and ClassDef", function(class_of(HOLE)), None),
    ("If", ("If", 1, 1, name(), [HOLE], []), None),
    ("If, orelse", ("If", 1, 1, name(), [PASS], [HOLE]), None),
    ("While", ("While", 1, 1, name(), [HOLE], []), None),
    ("While, orelse", ("While", 1, 1, name(), [PASS], [HOLE]), None),
    ("For", ("For", 1, 1, name(), name(), [HOLE], []), None),
    ("For, orelse", ("For", 1, 1, name(), name(), [PASS], [HOLE]), None),
    ("With", ("With", 1, 1, [("WithItem", name(), None)], [HOLE]), None),
    ("With of two items", ("With", 1, 1, [("WithItem", name(), None), ("WithItem", name(), None)], [HOLE]), None),
    ("Try", ("Try", 1, 1, [HOLE], [("ExceptHandler", None, None, [PASS])], [], []), None),
    ("Try, handler", ("Try", 1, 1, [PASS], [("ExceptHandler", name(), None, [HOLE])], [], []), None),
    ("Try, named handler", ("Try", 1, 1, [PASS], [("ExceptHandler", name(), "e", [HOLE])], [], []), None),
    ("Try, orelse", ("Try", 1, 1, [PASS], [("ExceptHandler", None, None, [PASS])], [HOLE], []), None),
    ("Try, body and finalbody", ("Try", 1, 1, [HOLE], [], [], [PASS]), None),
    ("Try, finalbody", ("Try", 1, 1, [PASS], [], [], [HOLE]), None),
    ("Try of all parts", ("Try", 1, 1, [PASS], [("ExceptHandler", name(), "e", [HOLE])], [PASS], [PASS]), None),
    ("AsyncFunctionDef", ("AsyncFunctionDef", 1, 1, "f", NO_PARAMETERS, [HOLE], [], None, []), "1:1 " + NOT_IMPLEMENTED),
    ("AsyncFor", ("AsyncFor", 1, 1, name(), name(), [HOLE], []), "1:1 " + NOT_IMPLEMENTED),
    ("AsyncWith", ("AsyncWith", 1, 1, [("WithItem", name(), None)], [HOLE]), "1:1 " + NOT_IMPLEMENTED),
    ("TryStar", ("TryStar", 1, 1, [HOLE], [("ExceptHandler", name(), None, [PASS])], [], []), "1:1 " + NOT_IMPLEMENTED),
    ("Match", ("Match", 1, 1, name(), [("MatchCase", [HOLE])]), "1:1 match expression is not implemented yet"),
]  # fmt: skip


def nesting(part, below=0):
    """How deep a tree nests, in which the hole nests `below` deep. A `With` of several items nests as many levels."""
    if part is HOLE:
        return below
    if not isinstance(part, (list, tuple)):
        return 0
    within = max([nesting(it, below) for it in part], default=0)
    if isinstance(part, list):
        return within
    return within + (max(1, len(part[3])) if part[0] == "With" else 1)


def levels(tree):
    """How many levels a tree puts around its hole."""
    return nesting(tree, DEEPEST) - DEEPEST


class Deep:
    """A tree that nests as deep as one likes: `step` in itself, around a leaf, and within a program. Where levels are left,
    `fill` stands in itself around the leaf. The line is what is told of it, where it is refused."""

    def __init__(self, title, step, around, leaf=("Name", 1, 1, "a"), fill=("UnaryOp", 1, 1, "Not", HOLE), line=None):
        self.title, self.step, self.around, self.leaf, self.fill, self.line = title, step, around, leaf, fill, line

    @property
    def by_scopes(self):
        """Whether its scopes refuse it, as they do a `match` alone."""
        return self.step[0] == "Match"

    def rows(self, depth):
        """Its rows, which nest exactly so deep."""
        count, rest = (depth - levels(self.around) - nesting(self.leaf)) // levels(self.step), 0
        while self.height(rest, count) > depth:
            count -= 1
        while self.height(rest, count) < depth:
            rest += 1
        rows = rows_of(self.leaf)
        for tree in self.parts(rest, count):
            rows_of(tree, len(rows) - 1, rows)
        return rows

    def parts(self, rest, count):
        """The trees around the leaf, from within."""
        return [self.fill] * rest + [self.step] * count + [self.around]

    def height(self, rest, count):
        """How deep the tree of these parts nests."""
        below = nesting(self.leaf)
        for tree in self.parts(rest, count):
            below = nesting(tree, below)
        return below


def deep_trees():
    """A tree for each way in which a kind of node stands in itself."""
    loose = valued(HOLE)
    plain = WRAPPED + TEXTS
    yield from (Deep(title, step, loose) for title, step in plain)
    yield from (Deep(title, step, module(function(("Expr", 1, 1, HOLE)))) for title, step in YIELDING)
    yield Deep("Await", ("Await", 1, 1, HOLE), loose, line="1:1 'await' outside async function")
    yield Deep("Starred", ("Starred", 1, 1, HOLE), loose, line="1:1 cannot use starred expression here")
    yield Deep("tuple", ("tuple", [HOLE]), valued(("Constant", 1, 1, HOLE)), ("none",), ("tuple", [HOLE]))
    choice = ("If", 1, 1, name(), [HOLE], [])
    yield from (Deep(title, step, module(HOLE), PASS, choice, line) for title, step, line in WITHIN)
    outermost = module(function(HOLE, args=parameters(parameter("v"))))
    yield Deep("FunctionDef, a name handed on", function(HOLE), outermost, ("Expr", 1, 1, name(text="v")), choice)
    target, unpacked = ("List", 1, 1, [HOLE]), ("Tuple", 1, 1, [("Starred", 1, 1, HOLE)])
    for title, step in ("target", target), ("target, starred", unpacked):
        yield Deep("Assign, " + title, step, module(("Assign", 1, 1, [HOLE], name())), fill=target)
    yield Deep("For, target", target, module(("For", 1, 1, HOLE, name(), [PASS], [])), fill=target)
    yield Deep("With, target", target, module(("With", 1, 1, [("WithItem", name(), HOLE)], [PASS])), fill=target)
    yield Deep("Comprehension, target", target, valued(list_of(name(), clause(target=HOLE))), fill=target)
    yield Deep("Delete", target, module(("Delete", 1, 1, [HOLE])), fill=target)
    yield Deep("If, test", ("BoolOp", 1, 1, "And", [("UnaryOp", 1, 1, "Not", HOLE), name()]), module(("If", 1, 1, HOLE, [PASS], [])))
    shown = module(POSTPONED, ("AnnAssign", 1, 1, name(), HOLE, None, True))
    kinds = WRAPPED + YIELDING + [("Await", ("Await", 1, 1, HOLE)), ("Starred", ("Starred", 1, 1, HOLE))]
    yield from (Deep("annotation: " + title, step, shown) for title, step in kinds)


def main():
    parser = argparse.ArgumentParser(prog="hostile_cases.py", description=__doc__, formatter_class=argparse.RawDescriptionHelpFormatter)
    parser.parse_args()
    print("%d inputs that are no rows" % len(INPUTS))
    print("%d trees that are refused" % len(list(refused_trees())))
    print("%d trees that nest deep" % len(list(deep_trees())))


if __name__ == "__main__":
    main()
