#!/usr/bin/env python3
"""Tests of what tools/instructions.py makes: the header for C and C++ beside the model, and what does not fit."""
import pathlib
import shutil
import subprocess
import sys
import tempfile
import unittest

TOOLS = pathlib.Path(__file__).resolve().parent
TOP = TOOLS.parent
sys.path.insert(0, str(TOOLS))

import instructions
import instr  # the model's

# It writes the effects of each instruction with each of these operands, and some of the numbers.
PROGRAM = """\
#include "pyc.h"
#include "pyc_code.h"
#include <stdio.h>

int main(void)
{
    static const uint32_t operands[] = {0, 1, 2, 3, 31, 515, 65535};
    unsigned i, j;

    for (i = 0; i < PYC_INSTRUCTION_COUNT; i++) {
        printf("%s %d %d", pyc_instructions[i].name, pyc_instructions[i].operand == PYC_OPERAND_LABEL, pyc_instructions[i].leaves);
        for (j = 0; j < sizeof operands / sizeof operands[0]; j++) {
            printf(" %ld %ld", (long)pyc_stack_effect((uint8_t)i, operands[j], 0), (long)pyc_stack_effect((uint8_t)i, operands[j], 1));
        }
        printf("\\n");
    }
    printf("%d %d %d %d %d\\n", PYC_SETUP_WITH, PYC_BINARY_MATRIX_MULTIPLY, PYC_TEST_EXCEPTION_MATCH, PYC_MAKE_FUNCTION_TYPE_PARAMS, PYC_CODE_IS_OPTIMIZED);
    return 0;
}
"""
OPERANDS = (0, 1, 2, 3, 31, 515, 65535)


def effect(name, operand, jump):
    """The effect by the model; of a raise that is none of its cases as the table has it."""
    return instr.stack_effect(name, min(operand, 2) if name == "Raise" else operand, jump)


def wanted():
    """What the program writes, by the model."""
    for name in instr.NAME_OF:
        effects = " ".join("%d %d" % (effect(name, operand, False), effect(name, operand, True)) for operand in OPERANDS)
        yield "%s %d %d %s" % (name, instr.has_target(name), instr.unconditional_branch(name), effects)
    yield "89 3 4 16 32"


class Header(unittest.TestCase):
    def setUp(self):
        folder = tempfile.TemporaryDirectory()
        self.addCleanup(folder.cleanup)
        self.folder = pathlib.Path(folder.name)

    def written(self, compiler, *words):
        """What the program writes, built so."""
        source = self.folder / "program.c"
        source.write_text(PROGRAM, encoding="ascii")
        strict = ("-Wall", "-Wextra", "-Wconversion", "-pedantic", "-Werror", "-I", str(TOP / "bindings"))
        subprocess.run([compiler, *words, *strict, "-o", str(self.folder / "program"), str(source)], check=True)
        return subprocess.run([str(self.folder / "program")], stdout=subprocess.PIPE, check=True).stdout.decode("ascii")

    @unittest.skipUnless(shutil.which("cc"), "there is no cc")
    def test_c(self):
        self.assertEqual(self.written("cc", "-std=c99"), "\n".join(wanted()) + "\n")

    @unittest.skipUnless(shutil.which("c++"), "there is no c++")
    def test_cpp(self):
        self.assertEqual(self.written("c++", "-std=c++11", "-x", "c++"), "\n".join(wanted()) + "\n")


class Fitting(unittest.TestCase):
    def test_effects(self):
        for text, base, times, of in (("-1", -1, 0, "n"), ("-(n as i32) - 3", -3, -1, "n"), ("1 - 2 * (n as i32)", 1, -2, "n"), ("(n as i32) - 1", -1, 1, "n"), ("raise(n)", 0, -1, "raise")):
            self.assertEqual(instructions.amount(text), instructions.Amount(base, times, of))
        for text in ("n * n", "-1 - most(n)", "1.5"):
            with self.assertRaises(instructions.Wrong):
                instructions.amount(text)

    def test_words_that_do_not_fit(self):
        rows = {row.name: row for row in instructions.rows()}
        for name, words in (("Pop", instructions.Words()), ("BuildMap", instructions.Words((("n", "pairs"),), ("map",))), ("UnpackEx", instructions.Words(("iterable",), (("n", "values"),)))):
            kept = instructions.WORDS[name]
            self.addCleanup(instructions.WORDS.__setitem__, name, kept)
            instructions.WORDS[name] = words
            with self.assertRaises(instructions.Wrong):
                instructions.compare_words(rows[name], instructions.ranges())

    def test_pages_that_do_not_fit(self):
        page, rows = instructions.PAGE.read_text(encoding="utf-8"), instructions.rows()
        instructions.compare_page(page, rows)
        for old, new in (("| `Rotate3` |", "| `Rotate2` |"), ("| `Nop` |", "| nop |")):
            with self.assertRaises(instructions.Wrong):
                instructions.compare_page(page.replace(old, new), rows)
        with self.assertRaises(instructions.Wrong):
            instructions.page_text(page.replace("<!-- cases end -->", ""), rows)


if __name__ == "__main__":
    unittest.main()
