"""What each name of a scope is, found from the uses, and the findings that follow: those of the program's report.

The program's report (`names`) is proved and has no places. This account of the same names says of which scope each of
its lines speaks, where two scopes have one path. It is tested beside that report, and nothing is proved of it.
"""
from __future__ import annotations

import enum
from typing import Dict, Iterator, List, NamedTuple, Optional, Set

from .uses import Role, Scope, ScopeKind, Use


class Kind(enum.Enum):
    """What the report tells of a name."""

    UNUSED = "unused"
    UNBOUND = "unbound"
    SHADOWED = "shadowed"
    CAPTURED = "captured"


class Reach(enum.Enum):
    """Where a name of a scope has its value."""

    UNKNOWN = "unknown"
    LOCAL = "local"
    CELL = "cell"  # local, and a scope within needs it
    FREE = "free"  # a cell of a scope around
    GLOBAL = "global"  # of the module, though no scope says so
    DECLARED_GLOBAL = "declared global"


GLOBALS = (Reach.UNKNOWN, Reach.GLOBAL, Reach.DECLARED_GLOBAL)
STORING = (Role.STORED, Role.IMPORTED, Role.WALRUS)
BINDING = STORING + (Role.PARAMETER, Role.ITERATED)


class Symbol:
    """A name of a scope: its uses there, and what is known of it."""

    __slots__ = ("name", "uses", "reach", "declared", "is_bound", "is_lifted", "is_passed", "hands_on")

    def __init__(self, name: str) -> None:
        self.name = name
        self.uses: List[Use] = []
        self.reach = Reach.UNKNOWN
        self.declared: Optional[Role] = None
        self.is_bound = False
        self.is_lifted = False  # a walrus in a comprehension stores it further out
        self.is_passed = False  # a scope within has it from further out
        self.hands_on = False  # the scope is a class through which a scope within has it

    def has(self, *roles: Role) -> bool:
        """Whether a use of the name in this scope has one of these roles."""
        return any(it.role in roles for it in self.uses)


class Told(NamedTuple):
    """What is told of a name of a scope, and the other scope, of one that is shadowed or captured."""

    kind: Kind
    scope: Scope
    name: str
    other: Optional[Scope]

    def line(self) -> str:
        """The line of the report that tells it."""
        link = " over " if self.kind is Kind.SHADOWED else " from "
        return "%s %s %s" % (self.kind.value, self.scope.path, self.name) + ("" if self.other is None else link + self.other.path)


class Bindings:
    """The names of the scopes of a module, resolved; the module is the first scope, and each comes before those within."""

    def __init__(self, scopes: List[Scope]) -> None:
        self.scopes = scopes
        self.symbols: Dict[Scope, Dict[str, Symbol]] = {it: {} for it in scopes}
        for scope in scopes:
            self.note(scope)
        inner_first = list(inside_out(scopes[0]))
        for scope in inner_first:
            if scope.kind is ScopeKind.COMPREHENSION:
                self.lift_names(scope)
        for scope in inner_first:
            for symbol in list(self.symbols[scope].values()):
                self.resolve(scope, symbol)

    def symbol(self, scope: Scope, name: str) -> Symbol:
        """The symbol of a name in a scope, which is made where there is none."""
        names = self.symbols[scope]
        found = names.get(name)
        if found is None:
            found = names[name] = Symbol(name)
        return found

    def note(self, scope: Scope) -> None:
        """Makes the symbols of the uses of a scope."""
        for use in scope.uses:
            symbol = self.symbol(scope, use.name)
            symbol.uses.append(use)
            if use.role in BINDING:
                symbol.is_bound = True
            if use.role in (Role.GLOBAL, Role.NONLOCAL):
                symbol.declared = use.role
                symbol.reach = Reach.DECLARED_GLOBAL if use.role is Role.GLOBAL else Reach.FREE

    def lift_names(self, scope: Scope) -> None:
        """Takes the names that walruses of a comprehension store to the scope that holds it."""
        for symbol in list(self.symbols[scope].values()):
            if symbol.has(Role.WALRUS):
                self.lift(scope, symbol.name)

    def lift(self, scope: Scope, name: str) -> None:
        """Takes one such name to the scope that holds the comprehension."""
        way, holder = [scope], around(scope)
        while holder.kind is ScopeKind.COMPREHENSION:
            way.append(holder)
            holder = around(holder)
        reach = self.lifted_reach(holder, name)
        for passed in way:
            symbol = self.symbol(passed, name)
            symbol.reach, symbol.is_lifted = reach, True

    def lifted_reach(self, holder: Scope, name: str) -> Reach:
        """What such a name is in the comprehension. A function that holds it binds it."""
        if holder.kind is ScopeKind.MODULE:
            return Reach.GLOBAL
        there = self.symbols[holder].get(name)
        if there is not None and there.declared is Role.GLOBAL:
            return Reach.DECLARED_GLOBAL
        if there is None or there.declared is None:
            self.symbol(holder, name).is_bound = True
        return Reach.FREE

    def resolve(self, scope: Scope, symbol: Symbol) -> None:
        """Finds what a name is, where the scopes within are resolved."""
        if symbol.declared is Role.NONLOCAL:
            self.look_outward(scope, symbol.name)
        if symbol.declared or symbol.is_lifted or symbol.is_passed:
            return
        if not symbol.is_bound:
            here = Reach.UNKNOWN if scope.kind is ScopeKind.MODULE else Reach.GLOBAL
            symbol.reach = self.look_outward(scope, symbol.name) or here
        else:
            symbol.reach = self.own_reach(scope, symbol.name)

    def own_reach(self, scope: Scope, name: str) -> Reach:
        """What a name is that the scope binds."""
        for inner in scope.within:
            there = self.symbols[inner].get(name)
            if there is None:
                continue
            if there.reach is Reach.FREE or there.hands_on:
                if scope.kind is not ScopeKind.CLASS or name == "__class__":
                    return Reach.CELL
            elif there.reach is Reach.DECLARED_GLOBAL and scope.kind is ScopeKind.MODULE:
                return Reach.DECLARED_GLOBAL
        return Reach.LOCAL

    def look_outward(self, scope: Scope, name: str) -> Optional[Reach]:
        """Where a name has its value that the scope does not bind. The scopes on the way to a cell have it from there."""
        way: List[Scope] = []
        outer = scope.around
        while outer is not None:
            there = self.symbols[outer].get(name)
            if there is not None and is_seen(outer, name):
                if there.reach is Reach.DECLARED_GLOBAL:
                    return Reach.DECLARED_GLOBAL
                if there.reach is not Reach.GLOBAL and there.is_bound:
                    break
            way.append(outer)
            outer = outer.around
        if outer is None:
            return None
        for passed in way:
            self.pass_through(passed, name)
        return Reach.FREE

    def pass_through(self, scope: Scope, name: str) -> None:
        """Notes that a scope has a name from further out for one within."""
        symbol = self.symbols[scope].get(name)
        if symbol is None:
            symbol = self.symbol(scope, name)
            symbol.reach, symbol.is_passed = Reach.FREE, True
        if scope.kind is ScopeKind.CLASS:
            symbol.hands_on = True

    def known_names(self) -> Set[str]:
        """The names that the module binds, and those that a scope stores in it."""
        found = {it.name for it in self.symbols[self.scopes[0]].values() if it.is_bound}
        for names in self.symbols.values():
            found.update(it.name for it in names.values() if it.is_bound and it.reach in (Reach.GLOBAL, Reach.DECLARED_GLOBAL))
        return found

    def told(self) -> List[Told]:
        """All findings, in the order of the report."""
        known = self.known_names()
        found: List[Told] = []
        for scope in self.scopes:
            for symbol in self.symbols[scope].values():
                found.extend(self.told_of(scope, symbol, known))
        return found

    def told_of(self, scope: Scope, symbol: Symbol, known: Set[str]) -> Iterator[Told]:
        """What is told of one name of a scope."""
        name = symbol.name
        if is_unused(scope, symbol):
            yield Told(Kind.UNUSED, scope, name, None)
        if symbol.has(Role.READ) and symbol.reach in GLOBALS and name not in known:
            yield Told(Kind.UNBOUND, scope, name, None)
        if symbol.reach in (Reach.LOCAL, Reach.CELL):
            outer = self.binder_around(scope, name)
            if outer is not None:
                yield Told(Kind.SHADOWED, scope, name, outer)
        if symbol.reach is Reach.FREE or symbol.hands_on:
            yield Told(Kind.CAPTURED, scope, name, self.cell_around(scope, name))

    def binder_around(self, scope: Scope, name: str) -> Optional[Scope]:
        """The nearest scope around that is no class and binds the name."""
        outer = scope.around
        while outer is not None:
            there = self.symbols[outer].get(name)
            if outer.kind is not ScopeKind.CLASS and there is not None and there.is_bound:
                return outer
            outer = outer.around
        return None

    def cell_around(self, scope: Scope, name: str) -> Optional[Scope]:
        """The nearest scope around in which the name is a cell."""
        outer = scope.around
        while outer is not None:
            there = self.symbols[outer].get(name)
            if there is not None and there.reach is Reach.CELL:
                return outer
            outer = outer.around
        return None

    def uses_told(self, told: Told) -> List[Use]:
        """The uses of which a finding tells: in its scope, and where that has none, in those within that need the name."""
        symbol = self.symbols[told.scope][told.name]
        if told.kind is Kind.UNBOUND:
            return [it for it in symbol.uses if it.role is Role.READ]
        if told.kind is not Kind.CAPTURED:
            own = [it for it in symbol.uses if it.role in BINDING]
            return own or list(self.walruses(told.scope, told.name))
        return (symbol.uses if symbol.reach is Reach.FREE else []) or list(self.free_uses(told.scope, told.name))

    def walruses(self, scope: Scope, name: str) -> Iterator[Use]:
        """The uses by which comprehensions within a scope store a name in it."""
        for inner in scope.within:
            if inner.kind is ScopeKind.COMPREHENSION:
                there = self.symbols[inner].get(name)
                yield from (it for it in (there.uses if there else ()) if it.role is Role.WALRUS)
                yield from self.walruses(inner, name)

    def free_uses(self, scope: Scope, name: str) -> Iterator[Use]:
        """The uses in scopes within that have the name through this scope."""
        for inner in scope.within:
            there = self.symbols[inner].get(name)
            if there is None:
                continue
            if there.reach is Reach.FREE:
                yield from there.uses
            if there.reach is Reach.FREE or there.hands_on:
                yield from self.free_uses(inner, name)


def around(scope: Scope) -> Scope:
    """The scope around one that is not the module."""
    assert scope.around is not None
    return scope.around


def inside_out(scope: Scope) -> Iterator[Scope]:
    """The scopes within a scope and itself, each after those within it."""
    for inner in scope.within:
        yield from inside_out(inner)
    yield scope


def is_seen(scope: Scope, name: str) -> bool:
    """Whether a scope shows a name of its own to those within: a class shows `__class__` alone, and a module none."""
    return scope.kind is not ScopeKind.MODULE and (scope.kind is not ScopeKind.CLASS or name == "__class__")


def is_unused(scope: Scope, symbol: Symbol) -> bool:
    """Whether a function binds the name for itself alone, not as a parameter, and never reads it."""
    is_own = scope.kind is ScopeKind.FUNCTION and symbol.is_bound and symbol.reach is Reach.LOCAL
    return is_own and not symbol.has(Role.PARAMETER, Role.READ)
