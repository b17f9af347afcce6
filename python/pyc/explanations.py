"""The kinds of refusals: what each is, what there is to do about it, and an example that is refused so.

The codes are kept: R1 a source that is no Python, or holds what rows have no word for; R2 what is too large; R3 what is not
compiled; R4 where something may stand; R5 names; R6 trees of a shape that no source has; R7 rows that are none.
"""
from __future__ import annotations

from .refusals import NOT_YET, Kind

LITERAL = "Put what gives the value into another module, or call what makes it, as float('1.5'). `pyc run --literals` does so by itself."
ASYNC = "No kind of code that is async is compiled, at any level. Run such a module by Python, and compile those that it calls."
LARGE = "Cut the file into several, or the expression into several with names between them."
RULE = "Python's own compiler refuses this too."
SHAPE = "Python's parser makes no such tree. It came as rows, or from a program that made the tree."
TYPE_PARAMETERS = "A TypeVar, with or without a bound, is compiled; T = ParamSpec('T') before the function does what its short form does."

PASS = '["Pass",1,1]'


def rows(*texts: str) -> str:
    """Rows of which each names those that its text does."""
    return "[%s]" % ",".join(texts)


ARGUMENTS = '["Arguments",[],[],null,[],null]'

KINDS = (
    Kind("R103", r"it nests too deep for the parser of this Python|SyntaxError: too many nested parentheses", "Python's own parser gives up", LARGE + " A later version of Python may read deeper sources.", "(" * 5000 + ")" * 5000),
    Kind("R101", r"\w*Error: .*", "Python's own parser refuses this", "The text is that of the parser of the Python that runs pyc: another version may read the source, or say it otherwise.", "a = (\n"),
    Kind("R102", r"the source is not .*|.*encod.*|source code (string )?cannot contain null bytes", "the bytes of the source are no text of its encoding", "A source is UTF-8, unless one of its first two lines names another encoding, as `# coding: latin-1`. It holds no NUL.", "# coding: no-such-name\n"),
    Kind("R104", r"rows have no word for a float", "a float: pyc compiles no literals that are floats", "A float is a number with a point or an exponent, as 1.5 and 1e3. " + LITERAL, "a = 1.5\n"),
    Kind("R105", r"rows have no word for a complex number", "a complex number: pyc compiles no literals that are complex", "A complex number is a number with a j behind it. " + LITERAL, "a = 2j\n"),
    Kind("R106", r"rows have no word for an integer past 128 bits", "an integer past 128 bits: constants have 128", "An integer is from -2**127 to 2**127 - 1. Write a wider one as an expression, as 2**200.", "a = 0x" + "f" * 40 + "\n"),
    Kind("R107", r"rows have no word for a surrogate", "a text with half of a pair of surrogates, which is no Unicode", "Texts are of Unicode. Call what makes such a text, as chr(0xD800).", "a = '\\ud800'\n"),
    Kind("R108", r"rows have no word for (a pattern of match but _|a guard of match|a constant of the class .*)", "a match: pyc compiles no match", "Write the cases as `if` and `elif`.", "match a:\n    case 1: pass\n", since=(3, 10)),
    Kind("R109", r"rows have no word for the default of a type parameter", "the default of a type parameter: pyc compiles none", "Leave the default out. Python reads it from 3.13 on.", "type A[T = int] = list[T]\n", since=(3, 13)),
    Kind("R110", r"rows have no word for the kind .*", "a kind of node that pyc does not know", "It is of a later Python than those that pyc knows. Write it in the older form.", "a = t'{b}'\n", since=(3, 14)),
    Kind("R111", r"the tree is .*", "a tree that is not as Python makes it", "A node lacks a field or a place, or a field holds something else. ast.fix_missing_locations gives places.", ""),
    Kind("R201", r"too deep", "it nests too deep: less than 1,024 nodes may stand within one another", LARGE + " A chain of `elif` nests once for each, and so does each operator of a long sum. The place is that of the first node that is too deep, counted from the innermost.", "a = " + "-" * 1100 + "b\n"),
    Kind("R202", r"tree is too large: nodes", "there are too many nodes: less than 4,194,304", "The size counts each node, name and operator. " + LARGE, "global " + ", ".join(["a"] * 2**22) + "\n"),
    Kind("R203", r"too long", "its rows have 67,108,864 bytes or more", LARGE, "'%s'\n" % ("a" * 2**26)),
    Kind("R301", NOT_YET, "an async function: pyc compiles no async code", ASYNC, "async def f(): pass\n", nodes=("AsyncFunctionDef",)),
    Kind("R302", NOT_YET, "an async for: pyc compiles no async code", ASYNC, "async for a in b: pass\n", nodes=("AsyncFor",)),
    Kind("R303", NOT_YET, "an async with: pyc compiles no async code", ASYNC, "async with a: pass\n", nodes=("AsyncWith",)),
    Kind("R304", NOT_YET, "an except*: pyc compiles no exception groups", "Catch the group by `except`, and go through its `exceptions`. Python reads except* from 3.11 on.", "try: pass\nexcept* a: pass\n", nodes=("TryStar",), since=(3, 11)),
    Kind("R305", NOT_YET, "a comprehension that is async: pyc compiles no async code", "A clause of it is `async for`, or its element awaits. " + ASYNC, "[a async for a in b]\n", nodes=("ListComp", "SetComp", "DictComp", "GeneratorExp")),
    Kind("R306", NOT_YET, "an f-string in an annotation that is postponed", "`from __future__ import annotations` keeps annotations as texts, and an f-string has none. Give the annotation a name before.", "from __future__ import annotations\na: f'{b}'\n"),
    Kind("R307", r"'await' outside async function", "an await: pyc compiles no async code", ASYNC, "await a\n"),
    Kind("R308", r"match expression is not implemented yet", "a match: pyc compiles no match", "Write the cases as `if` and `elif`.", "match a:\n    case _: pass\n", since=(3, 10)),
    Kind("R309", r"type parameters are not supported yet", "a ParamSpec or a TypeVarTuple: of type parameters pyc compiles TypeVar alone", TYPE_PARAMETERS, "def f[*T](): pass\n", since=(3, 12)),
    Kind("R401", r"'return' outside function", "a return that no function is around", RULE, "return\n"),
    Kind("R402", r"'yield( from)?' outside function", "a yield that no function is around", RULE, "yield\n"),
    Kind("R403", r"'(break|continue)' outside loop", "a break or continue that no loop is around", "A loop around a function is none in it, and the else part of a loop is not its body. " + RULE, "break\n"),
    Kind("R404", r"import \* only allowed at module level", "an import * in a function", "Import the names one by one. " + RULE, "def f(): from a import *\n"),
    Kind("R405", r"from __future__ imports must occur at the beginning of the file", "an import from __future__ that comes too late", "Only the docstring, comments and other such imports stand before it. " + RULE, "a\nfrom __future__ import division\n"),
    Kind("R406", r"future feature .* is not defined", "__future__ has no such feature", "The nine features are those of `__future__.all_feature_names` but barry_as_FLUFL. " + RULE, "from __future__ import a\n"),
    Kind("R407", r"cannot use starred expression here", "a star where no elements or arguments are listed", "Write (*a,) for a tuple. " + RULE, "*a\n"),
    Kind("R408", r"iterable unpacking cannot be used in comprehension", "a star in the element of a comprehension", "Write another `for` in place of the star. " + RULE, rows('["Name",1,3,"a"]', '["Starred",1,2,0]', '["Name",1,9,"b"]', '["Name",1,14,"c"]', '["Comprehension",2,3,[],false]', '["ListComp",1,1,1,[4]]', '["Expr",1,1,5]', '["Module",[6]]'), is_rows=True),
    Kind("R409", r"starred assignment target must be in a list or tuple", "a star that stands alone as a target", "Write a comma behind it, as *a, = b. " + RULE, "*a = b\n"),
    Kind("R410", r"two starred expressions in assignment", "two stars among the targets of one list", RULE, "a, *b, *c = d\n"),
    Kind("R411", r"too many expressions in star-unpacking assignment", "more than 255 targets before a star, or after it", "Unpack the rest in a second assignment. CPython takes more after the star.", ", ".join(["a"] * 256) + ", *b = c\n"),
    Kind("R412", r"cannot (assign to|delete) __debug__", "__debug__ is always there, and keeps its value", "It is False from level 1 on. " + RULE, "__debug__ = 1\n", since=(3, 9)),
    Kind("R413", r"cannot (assign to|delete) .*", "no target: a value cannot be stored there, or deleted", RULE, rows('["Name",1,1,"a"]', '["int","1"]', '["Constant",1,5,1]', '["Name",1,3,"b"]', '["Call",1,1,3,[],[]]', '["Assign",1,1,[4],2]', '["Expr",1,1,0]', '["Module",[5,6]]'), is_rows=True),
    Kind("R501", r"name '.*' is parameter and (global|nonlocal)", "a parameter that is declared global or nonlocal", RULE, "def f(a): global a\n"),
    Kind("R502", r"name '.*' is (used prior to|assigned to before) (global|nonlocal) declaration|annotated name '.*' can't be (global|nonlocal)", "a declaration that comes behind a use of the name", "Put the declaration first in its function. " + RULE, "def f():\n    a\n    global a\n"),
    Kind("R503", r"cannot define nonlocal '.*' at top level\.|nonlocal .* defined at place without an enclosing scope|no binding for nonlocal '.*' found", "a nonlocal name that no function around binds", "Bind the name in a function around, or declare it global. " + RULE, "def f(): nonlocal a\n"),
    Kind("R504", r"assignment expression cannot be used in a comprehension iterable expression", "a walrus in what a comprehension goes through", "Assign before the comprehension. " + RULE, "[a for a in (b := c)]\n"),
    Kind("R505", r"assignment expression cannot rebind comprehension iteration variable .*", "a walrus that stores what the comprehension goes through", "Take another name. " + RULE, "[[(a := b) for c in d] for a in e]\n"),
    Kind("R506", r"assignment expression within a comprehension cannot be used in a class body", "a walrus in a comprehension would bind in a class", "Assign before the comprehension. " + RULE, "class A:\n    [(a := b) for c in d]\n"),
    Kind("R507", r"duplicate type parameter '.*'", "two type parameters of one name", RULE, "def f[T, T](): pass\n", since=(3, 12)),
    Kind("R508", r"(named|yield) expression cannot be used in type parameters", "a walrus or a yield among type parameters", RULE, "def f[T: (a := b)](): pass\n", since=(3, 12)),
    Kind("R509", r"class name '.*' cannot be used in type parameters", "a name of a class, used among type parameters within it", "CPython takes such a name. Bind it outside the class.", "class A:\n    a = 1\n    def f[T: a](self): pass\n", since=(3, 12)),
    Kind("R601", r"malformed tree: WrongMode", "the mode does not fit the program", "A tree of an Interactive compiles in the modes single and block, and a FunctionType in none. " + SHAPE, rows('["Interactive",[]]'), is_rows=True),
    Kind("R602", r"malformed tree: .*", "a tree of a shape that no source has", SHAPE + " docs/ROWS.md lists the shapes.", rows('["Name",1,1,"a"]', '["Assign",1,1,[],0]', '["Module",[1]]'), is_rows=True),
    Kind("R603", r"empty (items|body) on With", "a with that has no items, or no statements", SHAPE, rows(PASS, '["With",1,1,[],[0]]', '["Module",[1]]'), is_rows=True),
    Kind("R701", r"input: .*", "the input is not the rows of a tree", "docs/ROWS.md says what rows are, and lists what may be wrong with them.", rows(), is_rows=True),
)

OTHER = Kind("R999", r".*", "pyc refuses this", "This text has no code of its own.", "")


def explained(code: str) -> str:
    """What --explain tells of a code. Raises WrongWords."""
    import textwrap

    from .errors import WrongWords

    kind = {it.code: it for it in KINDS}.get(code.upper())
    if kind is None:
        raise WrongWords("there is no code '%s': they are %s" % (code, ", ".join(it.code for it in KINDS)))
    lines = ["%s: %s" % (kind.code, kind.note), "", *textwrap.wrap(kind.more, 100)]
    if kind.example:
        of = "rows" if kind.is_rows else "a source"
        lines += ["", "So is this, which is %s%s:" % (of, "" if kind.since <= (3, 8) else " of Python %d.%d" % kind.since), ""]
        lines += ["    " + (it if len(it) < 90 else it[:40] + " .. and so on, %d characters in all" % len(it)) for it in kind.example.splitlines()]
    return "\n".join(lines) + "\n"
