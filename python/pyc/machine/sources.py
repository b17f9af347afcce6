"""From Python sources to codes that the machine runs, by the program or by the model; and the modules that are compiled."""
from __future__ import annotations

import ast
import importlib.abc
import importlib.machinery
import json
import os
import subprocess
import sys
import types
import warnings
from typing import Any, Optional, Sequence

from .. import codefile, listing, program, rows
from ..code_object import Code
from ..errors import INPUT, READ, Error, Failed, Refused
from ..refusals import refusal
from ..verified import verified_code
from . import bodies, literals, mains, translation
from .kept import Kept


class Compiler:
    """Compiles sources by a program (its path), or by the model where that is None."""

    def __init__(self, path: Optional[str], level: int = 0, has_literals: bool = False, keeps: bool = False):
        self.program, self.level, self.has_literals = path, level, has_literals
        self.kept = Kept(path, "%d %r %r" % (level, has_literals, translation.CHECKS)) if keeps else None
        if has_literals:
            literals.enter()

    def code(self, data: bytes, path: str, mode: str = "exec", name: Optional[str] = None) -> types.CodeType:
        """The code of the bytes of a source, or of a file of code. It bears the path; faults are told of the name."""
        if self.kept is None:
            return translation.linked(self.made(data, path, mode, name or path))
        file = self.kept.path(data, path, mode)
        made = self.kept.read(file)
        if made is None:
            made = self.made(data, path, mode, name or path)
            self.kept.write(file, made)
        return translation.linked(made)

    def made(self, data: bytes, path: str, mode: str, name: str) -> types.CodeType:
        """The code, with numbers for helpers."""
        code = self.verified(data, name) if is_code(data) else self.compiled(data, path, mode, name)
        try:
            return translation.translated(code)
        except translation.Unfit as unfit:
            raise Failed("%s: the code verifies, and cannot be run: %s\n" % (name, unfit), INPUT) from None
        except RecursionError:
            raise Failed("%s: codes nest too deep in it for this Python\n" % name, INPUT) from None

    def verified(self, data: bytes, name: str) -> Code:
        """The code of a file of code, which the program verifies first."""
        if self.program is None:
            raise Failed("%s: a file of code is verified by the program, which --model does without\n" % name, READ)
        return verified_code(data, name, self.program)

    def compiled(self, data: bytes, path: str, mode: str, name: str) -> Code:
        """The code object of the bytes of a source."""
        try:
            text = self.rows_text(data, mode).encode("utf-8")
        except rows.Fault as fault:
            raise Refused(refusal(name, fault.place, str(fault), rows.lines_of(data))) from None
        words = [mode, str(self.level), path]
        if self.program is None:
            status, made, said = model_answer(words, text)
        else:
            status, made, said = program.call(self.program, ["pack", *words], text, subprocess.PIPE)
        program.check(status, said, name, text, rows.lines_of(data), True)
        return codefile.read(made) if self.program else listing.read_listing(made)

    def rows_text(self, data: bytes, mode: str) -> str:
        """The rows of the bytes of a source."""
        if not self.has_literals:
            return rows.rows_text(data, mode)
        text = rows.text_of(data)
        tree = literals.Calls().visit(rows.tree_of(text, mode))
        return json.dumps(rows.rows_of(tree, rows.Source(text)), separators=(",", ":"), ensure_ascii=False)

    def of_text(self, text: str, path: Any, mode: str) -> Optional[types.CodeType]:
        """The code of a text that a program hands to eval, exec or compile; None where Python is to run it."""
        try:
            with warnings.catch_warnings():
                warnings.simplefilter("ignore")
                compile(text, path, mode, 0, True)
            with mains.shown():
                return self.code(text.encode("utf-8"), path if isinstance(path, str) else "<text>", mode)
        except (Error, Failed, SyntaxError, ValueError, OverflowError, RecursionError):
            return None


def is_code(data: bytes) -> bool:
    """Whether bytes are a file of code and no source, of this or of another format."""
    return data.startswith(codefile.MAGIC[:7])


def model_answer(words: Sequence[str], text: bytes) -> tuple[int, str, str]:
    """The status, the listing and what is told, by the model, which stands in a checkout alone."""
    folder = os.path.join(program.ROOT, "tools", "model")
    kept = dict(sys.modules)
    sys.path.insert(0, folder)
    try:
        import compile_rows

        return compile_rows.run(list(words), text)[:3]
    finally:
        sys.path.remove(folder)
        for name in set(sys.modules).difference(kept):
            if str(getattr(sys.modules[name], "__file__", "")).startswith(folder):
                MODEL[name] = sys.modules.pop(name)


# The modules of the model, so that a program may have others of these names.
MODEL: dict[str, types.ModuleType] = {}


class Importer(importlib.abc.MetaPathFinder):
    """Finds the modules of these names, and those within them, and has them compiled."""

    def __init__(self, compiler: Compiler, names: Sequence[str]):
        self.compiler, self.names = compiler, names

    def find_spec(self, name: str, path: Any = None, target: Any = None) -> Optional[importlib.machinery.ModuleSpec]:
        if not any(name == it or name.startswith(it + ".") for it in self.names):
            return None
        spec = importlib.machinery.PathFinder.find_spec(name, path, target)
        if spec is not None and isinstance(spec.loader, importlib.machinery.SourceFileLoader):
            spec.loader = Loader(spec.loader.name, spec.loader.path, self.compiler)
        return spec


class Loader(importlib.machinery.SourceFileLoader):
    """Loads one module. Where it is refused that is told, and Python runs it."""

    def __init__(self, name: str, path: str, compiler: Compiler):
        super().__init__(name, path)
        self.compiler = compiler

    def get_code(self, fullname: str) -> types.CodeType:
        try:
            with mains.shown():
                return bodies.fresh(self.compiler.code(self.get_data(self.path), self.path), ())[0]
        except (Error, Failed) as fault:
            print("pyc run: Python runs the module %s: %s" % (self.name, str(fault).partition("\n")[0]), file=sys.stderr)
            return super().get_code(fullname)
