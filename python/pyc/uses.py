"""The scopes of a tree and each use of a name in them, with the place where it stands, by a walk over the rows.

The walk goes over a tree as the scan of the compiler does, and enters the same scopes in the same order. It is tested
beside the report of the program (`names`), and nothing is proved of it. A tree that the program refuses is not walked.
"""
from __future__ import annotations

import enum
from typing import Any, Callable, Dict, List, NamedTuple, Optional, Tuple


class Role(enum.Enum):
    """What a use does with its name."""

    READ = "read"
    STORED = "stored"
    IMPORTED = "imported"
    PARAMETER = "parameter"
    WALRUS = "walrus"  # stored by a walrus in a comprehension, so in the scope around
    ITERATED = "iterated"  # a target of a comprehension
    GLOBAL = "global"
    NONLOCAL = "nonlocal"


class Stands(enum.Enum):
    """What stands in the source at the row and column of a use."""

    NAME = "name"  # the name itself
    DEFINITION = "definition"  # the statement of a function or class of that name
    IMPORT = "import"  # the import whose alias of that `number` it is
    DECLARATION = "declaration"  # the statement whose name of that `number` it is
    HANDLER = "handler"  # the type of the exception, behind which `as` and the name come
    UNWRITTEN = "unwritten"  # what has the name without a word for it, as a class has `__doc__`


class ScopeKind(enum.Enum):
    """What a scope is of."""

    MODULE = "module"
    FUNCTION = "function"
    CLASS = "class"
    COMPREHENSION = "comprehension"
    TYPE_PARAMETERS = "type parameters"


class Use(NamedTuple):
    """A use of a name. The row and the column count characters from 1, and are those of what `stands` says."""

    name: str
    written: str
    role: Role
    row: int
    column: int
    stands: Stands
    number: int
    text: Optional[Tuple[int, int]]  # the place of the outermost f-string around it


class Scope:
    """A scope: its kind, its name in reports, the scope around it, those within it and its uses in order."""

    __slots__ = ("kind", "name", "around", "within", "uses", "path")

    def __init__(self, kind: ScopeKind, name: str, around: Optional[Scope]) -> None:
        self.kind, self.name, self.around = kind, name, around
        self.within: List[Scope] = []
        self.uses: List[Use] = []
        self.path: str = name if around is None else around.path + "/" + name


class Context(enum.Enum):
    """For what an expression stands where it does."""

    LOAD = "load"
    ITERABLE = "iterable"  # in the iterable of a comprehension
    STORE = "store"
    DELETE = "delete"
    TARGET = "target"  # of a comprehension
    WALRUS = "walrus"


# The kinds of expression that are their parts alone: where these stand in the row, and whether the parts stand for what
# the whole does.
PARTS: Dict[str, Tuple[Tuple[int, ...], bool]] = {
    "BinOp": ((3, 5), True),
    "UnaryOp": ((4,), True),
    "BoolOp": ((4,), True),
    "Compare": ((3, 5), True),
    "Set": ((3,), True),
    "List": ((3,), True),
    "Tuple": ((3,), True),
    "Starred": ((3,), True),
    "Await": ((3,), True),
    "Yield": ((3,), True),
    "YieldFrom": ((3,), True),
    "Slice": ((3, 4, 5), True),
    "Subscript": ((3, 4), False),
    "Attribute": ((3,), False),
    "IfExp": ((3, 4, 5), False),
    "FormattedValue": ((3, 5), False),
    "Constant": ((), False),
}

# The roles of a name that stands alone, by its context; a deletion stores it and reads it.
ROLES = {
    Context.LOAD: (Role.READ,),
    Context.ITERABLE: (Role.READ,),
    Context.STORE: (Role.STORED,),
    Context.DELETE: (Role.STORED, Role.READ),
    Context.TARGET: (Role.ITERATED,),
    Context.WALRUS: (Role.WALRUS,),
}

# The names that each class has from the start.
NAMES_OF_CLASSES = ("__module__", "__qualname__", "__doc__", "__class__")

Row = List[Any]


def mangled(class_name: Optional[str], name: str) -> str:
    """The name as the innermost class writes it: pyc takes one leading underscore from the class's name."""
    if class_name is None or not name.startswith("__") or name.endswith("__") or "." in name:
        return name
    return "_" + (class_name[1:] if class_name.startswith("_") else class_name) + name


class Walk:
    """The walk over the rows of a module."""

    def __init__(self, rows: List[Row]) -> None:
        self.rows = rows
        self.top = Scope(ScopeKind.MODULE, "top", None)
        self.scopes = [self.top]
        self.class_name: Optional[str] = None
        self.text: Optional[Tuple[int, int]] = None
        self.is_postponed = False

    # Scopes and names.

    def enter(self, kind: ScopeKind, name: str) -> None:
        """Enters a scope within the present one."""
        scope = Scope(kind, name, self.top)
        self.top.within.append(scope)
        self.scopes.append(scope)
        self.top = scope

    def leave(self) -> None:
        """Goes back to the scope around."""
        assert self.top.around is not None
        self.top = self.top.around

    def register(self, written: str, role: Role, row: Row, stands: Stands = Stands.NAME, number: int = 0) -> None:
        """Notes a use in the present scope, at the place of this row."""
        name = mangled(self.class_name, written)
        self.top.uses.append(Use(name, written, role, row[1], row[2], stands, number, self.text))

    # Statements.

    def module(self) -> List[Scope]:
        """The scopes of the program, each before those within it."""
        self.body(self.rows[-1][1])
        return self.scopes

    def body(self, numbers: List[int]) -> None:
        """Goes over statements."""
        for number in numbers:
            row = self.rows[number]
            STATEMENTS[row[0]](self, row)

    def function(self, row: Row) -> None:
        """A FunctionDef or an AsyncFunctionDef."""
        _, _, _, name, arguments, body, decorators, returns, type_parameters = row
        self.expressions(decorators)
        if type_parameters:
            self.enter_parameters(name, type_parameters, row, arguments)
        else:
            self.defaults(arguments)
        self.enter(ScopeKind.FUNCTION, name)
        self.parameters(arguments)
        self.body(body)
        self.leave()
        self.annotation(returns)
        self.annotations(arguments)
        if type_parameters:
            self.leave()
            self.defaults(arguments)
        self.register(name, Role.STORED, row, Stands.DEFINITION)

    def class_definition(self, row: Row) -> None:
        """A ClassDef."""
        _, _, _, name, bases, keywords, body, decorators, type_parameters = row
        self.expressions(decorators)
        if type_parameters:
            self.enter_parameters(name, type_parameters, row)
        around, self.class_name = self.class_name, name
        self.enter(ScopeKind.CLASS, name)
        for given in NAMES_OF_CLASSES:
            self.register(given, Role.STORED, row, Stands.UNWRITTEN)
        self.body(body)
        self.leave()
        self.class_name = around
        self.expressions(bases)
        self.keywords(keywords)
        if type_parameters:
            self.leave()
        self.register(name, Role.STORED, row, Stands.DEFINITION)

    def alias_of_type(self, row: Row) -> None:
        """A TypeAlias."""
        _, _, _, name, type_parameters, value = row
        named = self.rows[name]
        if type_parameters:
            self.enter_parameters(named[3] if named[0] == "Name" else "?", type_parameters, row)
        self.expression(value, Context.LOAD)
        if type_parameters:
            self.leave()
        self.expression(name, Context.STORE)

    def enter_parameters(self, name: str, type_parameters: List[int], row: Row, arguments: Optional[int] = None) -> None:
        """Enters a scope of type parameters, and notes these."""
        self.enter(ScopeKind.TYPE_PARAMETERS, "<generic parameters of %s>" % name)
        if arguments is not None:
            _, positional_only, positional, _, keyword_only, _ = self.rows[arguments]
            for given, name in ((positional_only + positional, ".defaults"), (keyword_only, ".kwdefaults")):
                if any(self.rows[it][2] is not None for it in given):
                    self.register(name, Role.PARAMETER, row, Stands.UNWRITTEN)
        for number in type_parameters:
            parameter = self.rows[number]
            self.expression(parameter[4], Context.LOAD)
            self.register(parameter[3], Role.STORED, parameter)

    def declaration(self, row: Row) -> None:
        """A Global or a Nonlocal."""
        role = Role.GLOBAL if row[0] == "Global" else Role.NONLOCAL
        for number, name in enumerate(row[3]):
            self.register(name, role, row, Stands.DECLARATION, number)

    def import_names(self, row: Row) -> None:
        """An Import or an ImportFrom."""
        aliases = row[3] if row[0] == "Import" else row[4]
        if row[0] == "ImportFrom" and row[3] == "__future__":
            self.is_postponed = self.is_postponed or any(self.rows[it][1] == "annotations" for it in aliases)
        for number, alias in enumerate(aliases):
            _, name, given = self.rows[alias]
            self.register(name.split(".")[0] if given is None else given, Role.IMPORTED, row, Stands.IMPORT, number)

    def assignment(self, row: Row) -> None:
        """An Assign."""
        self.expression(row[4], Context.LOAD)
        self.expressions(row[3], Context.STORE)

    def augmented(self, row: Row) -> None:
        """An AugAssign."""
        self.expression(row[3], Context.STORE)
        self.expression(row[5], Context.LOAD)

    def annotated(self, row: Row) -> None:
        """An AnnAssign."""
        _, _, _, target, annotation, value, _ = row
        self.expression(value, Context.LOAD)
        self.expression(target, Context.STORE)
        self.annotation(annotation)

    def loop(self, row: Row) -> None:
        """A For or an AsyncFor."""
        _, _, _, target, iterable, body, orelse = row
        self.expression(iterable, Context.LOAD)
        self.expression(target, Context.STORE)
        self.body(body)
        self.body(orelse)

    def test(self, row: Row) -> None:
        """A While or an If."""
        self.expression(row[3], Context.LOAD)
        self.body(row[4])
        self.body(row[5])

    def with_items(self, row: Row) -> None:
        """A With or an AsyncWith."""
        for number in row[3]:
            _, value, target = self.rows[number]
            self.expression(value, Context.LOAD)
            self.expression(target, Context.STORE)
        self.body(row[4])

    def try_body(self, row: Row) -> None:
        """A Try or a TryStar."""
        _, _, _, body, handlers, orelse, finalbody = row
        self.body(body)
        for number in handlers:
            _, type_, name, handler = self.rows[number]
            self.expression(type_, Context.LOAD)
            if name is not None:
                self.register(name, Role.STORED, self.rows[type_], Stands.HANDLER)
            self.body(handler)
        self.body(orelse)
        self.body(finalbody)

    def values(self, row: Row) -> None:
        """A statement that is expressions alone: each of its fields is one or None."""
        self.expressions(row[3:])

    def deletion(self, row: Row) -> None:
        """A Delete."""
        self.expressions(row[3], Context.DELETE)

    def nothing(self, row: Row) -> None:
        """A statement without names."""

    # Parameters and annotations.

    def parameter_rows(self, arguments: int) -> List[Row]:
        """The rows of all parameters, in the order in which they are noted."""
        _, positional_only, positional, rest, keyword_only, keywords = self.rows[arguments]
        found = [self.rows[self.rows[it][1]] for it in positional_only + positional + keyword_only]
        return found + [self.rows[it] for it in (rest, keywords) if it is not None]

    def parameters(self, arguments: int) -> None:
        """Notes the parameters of a function."""
        for row in self.parameter_rows(arguments):
            self.register(row[3], Role.PARAMETER, row)

    def defaults(self, arguments: int) -> None:
        """Goes over the defaults of a function."""
        _, positional_only, positional, _, keyword_only, _ = self.rows[arguments]
        for number in positional_only + positional + keyword_only:
            self.expression(self.rows[number][2], Context.LOAD)

    def annotation(self, number: Optional[int]) -> None:
        """Goes over an annotation, unless all are postponed."""
        if not self.is_postponed:
            self.expression(number, Context.LOAD)

    def annotations(self, arguments: int) -> None:
        """Goes over the annotations of parameters."""
        for row in self.parameter_rows(arguments):
            self.annotation(row[4])

    # Expressions.

    def expressions(self, numbers: List[Optional[int]], context: Context = Context.LOAD) -> None:
        """Goes over expressions, of which some may be None."""
        for number in numbers:
            self.expression(number, context)

    def expression(self, number: Optional[int], context: Context) -> None:
        """Goes over an expression, where there is one."""
        if number is None:
            return
        row = self.rows[number]
        parts = PARTS.get(row[0])
        if parts is None:
            EXPRESSIONS[row[0]](self, row, context)
            return
        fields, is_handed_on = parts
        inner = context if is_handed_on else Context.LOAD
        for at in fields:
            part = row[at]
            if part.__class__ is list:
                for it in part:
                    self.expression(it, inner)
            elif part is not None:
                self.expression(part, inner)

    def name(self, row: Row, context: Context) -> None:
        """A Name."""
        for role in ROLES[context]:
            self.register(row[3], role, row)
        if context is Context.LOAD and row[3] == "super" and self.top.kind is ScopeKind.FUNCTION:
            self.register("__class__", Role.READ, row, Stands.UNWRITTEN)

    def dictionary(self, row: Row, context: Context) -> None:
        """A Dict."""
        for key, value in zip(row[3], row[4]):
            self.expression(key, context)
            self.expression(value, context)

    def call(self, row: Row, context: Context) -> None:
        """A Call."""
        self.expression(row[3], context if context is Context.ITERABLE else Context.LOAD)
        self.expressions(row[4])
        self.keywords(row[5])

    def keywords(self, numbers: List[int]) -> None:
        """Goes over the values of keywords."""
        for number in numbers:
            self.expression(self.rows[number][2], Context.LOAD)

    def joined(self, row: Row, context: Context) -> None:
        """A JoinedStr, which is an f-string."""
        around = self.text
        self.text = around or (row[1], row[2])
        self.expressions(row[3])
        self.text = around

    def lambda_body(self, row: Row, context: Context) -> None:
        """A Lambda."""
        _, _, _, arguments, body = row
        self.defaults(arguments)
        self.enter(ScopeKind.FUNCTION, "lambda")
        self.parameters(arguments)
        self.expression(body, context if context is Context.ITERABLE else Context.LOAD)
        self.leave()
        self.annotations(arguments)

    def walrus(self, row: Row, context: Context) -> None:
        """A NamedExpr."""
        _, _, _, target, value = row
        self.expression(value, Context.LOAD)
        is_within = self.top.kind is ScopeKind.COMPREHENSION
        self.expression(target, Context.WALRUS if is_within else Context.STORE)

    def comprehension(self, row: Row, context: Context) -> None:
        """A ListComp, a SetComp, a DictComp or a GeneratorExp."""
        elements, generators = row[3:-1], row[-1]
        self.enter(ScopeKind.COMPREHENSION, "genexpr")
        self.register(".0", Role.PARAMETER, row, Stands.UNWRITTEN)
        for index, number in enumerate(generators):
            _, target, iterable, conditions, _ = self.rows[number]
            if index:
                self.expression(iterable, Context.ITERABLE)
            self.expression(target, Context.TARGET)
            self.expressions(conditions)
        self.expressions(elements)
        self.leave()
        self.expression(self.rows[generators[0]][2], Context.ITERABLE)


STATEMENTS: Dict[str, Callable[[Walk, Row], None]] = {
    "FunctionDef": Walk.function,
    "AsyncFunctionDef": Walk.function,
    "ClassDef": Walk.class_definition,
    "TypeAlias": Walk.alias_of_type,
    "Global": Walk.declaration,
    "Nonlocal": Walk.declaration,
    "Import": Walk.import_names,
    "ImportFrom": Walk.import_names,
    "Assign": Walk.assignment,
    "AugAssign": Walk.augmented,
    "AnnAssign": Walk.annotated,
    "For": Walk.loop,
    "AsyncFor": Walk.loop,
    "While": Walk.test,
    "If": Walk.test,
    "With": Walk.with_items,
    "AsyncWith": Walk.with_items,
    "Try": Walk.try_body,
    "TryStar": Walk.try_body,
    "Expr": Walk.values,
    "Return": Walk.values,
    "Raise": Walk.values,
    "Assert": Walk.values,
    "Delete": Walk.deletion,
    "Pass": Walk.nothing,
    "Break": Walk.nothing,
    "Continue": Walk.nothing,
}

EXPRESSIONS: Dict[str, Callable[[Walk, Row, Context], None]] = {
    "Name": Walk.name,
    "Dict": Walk.dictionary,
    "Call": Walk.call,
    "JoinedStr": Walk.joined,
    "Lambda": Walk.lambda_body,
    "NamedExpr": Walk.walrus,
    "ListComp": Walk.comprehension,
    "SetComp": Walk.comprehension,
    "DictComp": Walk.comprehension,
    "GeneratorExp": Walk.comprehension,
}


def scopes_of(rows: List[Row]) -> List[Scope]:
    """The scopes of the module that the rows are, each before those within it, the module first.

    A row nests at most 2^10 deep, and so does the walk; who calls this sees that Python's limit of calls is above it.
    """
    return Walk(rows).module()
