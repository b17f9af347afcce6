#!/usr/bin/env python3
"""Tests of memory.py, over small sources.

usage: test_memory.py
"""
import pathlib
import tempfile
import unittest

import memory

HEAD = """
fn copy(alloc: Global) -> Result<Text, AllocError> { text.try_clone(alloc) }
fn lay_out(alloc: Global) -> Result<Text, LayoutError> { copy(alloc)? }
"""


def found(body):
    """In which functions of one source there are places."""
    with tempfile.TemporaryDirectory() as folder:
        source = pathlib.Path(folder) / "crates" / "one" / "src"
        source.mkdir(parents=True)
        (source / "lib.rt").write_text(HEAD + body, encoding="utf-8")
        return {function: many for (_, function), many in memory.places(pathlib.Path(folder)).items()}


class Places(unittest.TestCase):
    def test_an_allocation_is_no_place(self):
        for call in ("copy(alloc)", "text.try_clone(alloc)", "items.push(x)", "Box::new(alloc, x)", "vec![in alloc; 0; n]", 'format!(in alloc; "{n}")'):
            with self.subTest(call):
                self.assertEqual(found("fn f() { match %s { Ok(x) => Ok(x), Err(_) => Err(Fault::OutOfMemory), } }" % call), {})
                self.assertEqual(found("fn f() { let Ok(x) = %s else { return Err(AllocError); }; x }" % call), {})

    def test_other_errors_are_places(self):
        for call in ("lay_out(alloc)", "u32::try_from(n)", "self.finish()"):
            with self.subTest(call):
                self.assertEqual(found("fn f() { match %s { Ok(x) => Ok(x), Err(_) => Err(Fault::OutOfMemory), } }" % call), {"f": 1})

    def test_conditions_are_places(self):
        self.assertEqual(found("fn f() { if n >= LIMIT { return Err(em.error(Fault::OutOfMemory)); } Ok(n) }"), {"f": 1})
        self.assertEqual(found("fn f() { let Some(n) = n.checked_add(1) else { refuse!(em, Fault::OutOfMemory); }; Ok(n) }"), {"f": 1})
        self.assertEqual(found("fn f() { match o { Some(n) => Ok(n), None => Err(AllocError), } }"), {"f": 1})

    def test_what_hands_memory_on_is_no_place(self):
        self.assertEqual(found("fn f() { match e { Told::OutOfMemory => Fault::OutOfMemory, other => Fault::Other(other), } }"), {})
        self.assertEqual(found("impl From<AllocError> for Fault { fn from(_e: AllocError) -> Fault { Fault::OutOfMemory } }"), {})
        self.assertEqual(found("fn f() { if e.is_memory() { Err(Fault::OutOfMemory) } else { Err(Fault::Other) } }"), {})
        self.assertEqual(found("fn f() { if e.kind() == io::Kind::OutOfMemory { Status::Memory } else { Status::Usage } }"), {})
        self.assertEqual(found("fn f() { match p { Prepared::Memory => Report { status: Status::Memory, code: None }, other => other } }"), {})

    def test_an_arm_that_says_something_besides_is_a_place(self):
        self.assertEqual(found("fn f() { match e { Err(Told::TooLong | Told::OutOfMemory) => Prepared::Memory, Ok(x) => x } }"), {"f": 1})

    def test_types_patterns_and_clauses_are_no_places(self):
        self.assertEqual(found("fn f() -> Result<u8, AllocError> ensures { IfErr result (λ e. e ≡ Fault.OutOfMemory) } { Ok(1) }"), {})
        self.assertEqual(found("enum Fault { OutOfMemory, Other } fn f() { if e == Fault::OutOfMemory { 1 } else { 2 } }"), {})

    def test_who_makes_such_an_error_for_others_is_asked_where_it_is_called(self):
        made = "fn starved() -> Fault { Fault::OutOfMemory } "
        self.assertEqual(found(made + "fn f() { if long { return Err(starved()); } Ok(1) }"), {"f": 1})
        self.assertEqual(found(made + "fn f() { match copy(alloc) { Ok(x) => Ok(x), Err(_) => Err(starved()), } }"), {})


if __name__ == "__main__":
    unittest.main()
