"""The instructions: what each does to the stack of values, written in Python.

Each is a function of the operand that gives lines of Python, as its instruction is done on CPython's own objects. These
lines are put together into a function (`translation.py`), in the order of the code, so that nothing is decoded and no
instruction is looked up while it runs. `TABLE` has the functions by the names of their instructions.

In the lines `stack` is the stack of values, whose top is last; `blocks` are the open blocks, the innermost last; `at` is
the unit that comes next, and `continue` goes to it. A word in capitals stands for an object of `helpers.py`. Each line is
a statement. Its parts that do something are done from left to right, but what stands behind a `=` comes first: so
`stack.pop(-2) - stack.pop()` takes the value below the top and then the top.

The parameters of a function say what it is told: `operand` the number itself; `constant`, `variable`, `name`, `text` a
word for the constant, the variable, the attribute and the text that the number names; `cell` the cell that it names;
`target` the unit that it names; `following` the next unit; `leaves` what ends the code with the value on top;
`has_handlers` whether the code has blocks besides loops; `hooked` a form for what is called; `names` the names where the
code runs. In the docstrings "takes A, B" says that A lies on top and B below it; what is given lies on top, the last one
highest.
"""
from __future__ import annotations

from typing import Callable, NamedTuple

TABLE: dict[str, Callable] = {}

# The most values that are taken one by one; of more, a part of the stack is taken.
FEW = 8


class Cell(NamedTuple):
    """A cell that an instruction names: the word for it, the word for its name, whether it comes from the code around,
    and whether it is a variable of Python, which looks into the cell by itself."""

    word: str
    name: str
    is_free: bool
    is_variable: bool


def instruction(function: Callable) -> Callable:
    """Enters a function into the table, by its own name: `load_const` is the instruction LoadConst."""
    TABLE["".join(it.capitalize() for it in function.__name__.split("_"))] = function
    return function


def popped(count: int) -> str:
    """So many values from the top of the stack, the lowest first, each of them taken."""
    return ", ".join("stack.pop(-%d)" % it if it > 1 else "stack.pop()" for it in range(count, 0, -1))


# The stack


@instruction
def load_const(constant: str) -> str:
    """Gives a constant."""
    return f"stack.append({constant})"


@instruction
def pop() -> str:
    """Takes a value."""
    return "del stack[-1]"


@instruction
def rotate2() -> str:
    """Takes A, B; gives A, B: the two change places."""
    return "stack.append(stack.pop(-2))"


@instruction
def rotate3() -> str:
    """Takes A, B, C; gives A, C, B: the top goes below the two others."""
    return "stack.insert(-2, stack.pop())"


@instruction
def duplicate() -> str:
    """Takes A; gives A, A."""
    return "stack.append(stack[-1])"


@instruction
def duplicate2() -> str:
    """Takes A, B; gives B, A, B, A."""
    return "stack.extend(stack[-2:])"


@instruction
def nop() -> str:
    """Does nothing."""
    return "pass"


# Names


@instruction
def load_fast(variable: str) -> str:
    """Gives the value of a local variable. Raises UnboundLocalError where it has none."""
    return f"stack.append({variable})"


@instruction
def store_fast(variable: str) -> str:
    """Takes a value, which is the local variable's from now on."""
    return f"{variable} = stack.pop()"


@instruction
def delete_fast(variable: str) -> str:
    """Takes the value of a local variable away. Raises UnboundLocalError where it has none."""
    return f"del {variable}"


@instruction
def load_deref(cell: Cell) -> str:
    """Gives the value of a cell. Raises UnboundLocalError, or NameError for a free one, where it has none."""
    if cell.is_variable:
        return f"stack.append({cell.word})"
    return contents(f"CONTENTS({cell.word})", cell)


def contents(value: str, cell: Cell) -> str:
    """Gives a value, which is UNSET where the cell is empty; that is an error then."""
    return f"""
        stack.append({value})
        if stack[-1] is UNSET: raise UNBOUND({cell.name}, {cell.is_free})
        """


@instruction
def load_class_deref(cell: Cell) -> str:
    """Gives the value of a name of the class, or that of the cell of this name where the class has none."""
    return load_deref(cell) if cell.is_variable else contents(f"NAME_OR_CONTENTS(LOCALS(), {cell.name}, {cell.word})", cell)


@instruction
def store_deref(cell: Cell) -> str:
    """Takes a value, which is the cell's from now on."""
    return f"{cell.word}{'' if cell.is_variable else '.cell_contents'} = stack.pop()"


@instruction
def delete_deref(cell: Cell) -> str:
    """Empties a cell. Raises UnboundLocalError, or NameError for a free one, where it is empty."""
    if cell.is_variable:
        return f"del {cell.word}"
    return load_deref(cell) + f"""
        del stack[-1]
        del {cell.word}.cell_contents
        """


@instruction
def load_closure(cell: Cell) -> str:
    """Gives a cell itself."""
    return f"stack.append((lambda: {cell.word}).__closure__[0])" if cell.is_variable else f"stack.append({cell.word})"


@instruction
def load_global(variable: str) -> str:
    """Gives the value of a name of the module, or of the built-in of that name. Raises NameError where there is none."""
    return f"stack.append({variable})"


@instruction
def store_global(variable: str) -> str:
    """Takes a value and stores it under a name of the module."""
    return f"{variable} = stack.pop()"


@instruction
def delete_global(variable: str) -> str:
    """Deletes a name of the module. Raises NameError where it is not there."""
    return f"del {variable}"


@instruction
def load_name_any(variable: str) -> str:
    """Gives the value of a name where the code runs, of the module's, or of the built-in. Raises NameError."""
    return f"stack.append({variable})"


@instruction
def store_local(variable: str) -> str:
    """Takes a value and stores it under a name where the code runs."""
    return f"{variable} = stack.pop()"


@instruction
def delete_local(variable: str) -> str:
    """Deletes a name where the code runs. Raises NameError where it is not there."""
    return f"del {variable}"


# Objects


@instruction
def load_attr(name: str) -> str:
    """Takes an object; gives its attribute."""
    return f"stack.append(stack.pop().{name})"


@instruction
def store_attr(name: str) -> str:
    """Takes an object, a value; stores the value as the object's attribute."""
    return f"stack.pop().{name} = stack.pop(-2)"


@instruction
def delete_attr(name: str) -> str:
    """Takes an object; deletes its attribute."""
    return f"del stack.pop().{name}"


@instruction
def load_method(name: str) -> str:
    """Takes an object; gives None, False, its attribute: what is called, and that no object goes before the arguments."""
    return f"stack.extend((None, False, stack.pop().{name}))"


@instruction
def subscript() -> str:
    """Takes an index, a container; gives the container's entry."""
    return "stack.append(stack.pop(-2)[stack.pop()])"


@instruction
def store_subscript() -> str:
    """Takes an index, a container, a value; stores the value as the container's entry."""
    return "stack.pop(-2)[stack.pop()] = stack.pop(-3)"


@instruction
def delete_subscript() -> str:
    """Takes an index, a container; deletes the container's entry."""
    return "del stack.pop(-2)[stack.pop()]"


# Operations: the cases by their numbers.

UNARY = ("+", "-", "not ", "~")
BINARY = ("+", "-", "*", "@", "/", "//", "%", "**", "<<", ">>", "|", "^", "&")
INPLACE = "IADD ISUB IMUL IMATMUL ITRUEDIV IFLOORDIV IMOD IPOW ILSHIFT IRSHIFT IOR IXOR IAND".split()
COMPARISONS = ("<", ">", "!=", "==", "<=", ">=")
TESTS = ("in", "not in", "is", "is not")
CONVERSIONS = ("%s", "STR(%s)", "ASCII(%s)", "REPR(%s)")


@instruction
def unary_operation(operand: int) -> str:
    """Takes a value; gives what the operation makes of it."""
    return f"stack.append({UNARY[operand]}stack.pop())"


@instruction
def binary_operation(operand: int) -> str:
    """Takes the right value, the left one; gives what the operation makes of them."""
    return f"stack.append(stack.pop(-2) {BINARY[operand]} stack.pop())"


@instruction
def binary_operation_inplace(operand: int) -> str:
    """Takes the right value, the left one; gives what the assignment with the operation makes of them."""
    return f"stack.append({INPLACE[operand]}(stack.pop(-2), stack.pop()))"


@instruction
def compare_operation(operand: int) -> str:
    """Takes the right value, the left one; gives what the comparison answers."""
    return f"stack.append(stack.pop(-2) {COMPARISONS[operand]} stack.pop())"


@instruction
def test_operation(operand: int) -> str:
    """Takes the right value, the left one; gives whether the test holds. The fifth is whether an exception, on the left,
    is of a class or of one of a tuple of classes; TypeError is raised where these are no classes of exceptions."""
    if operand < len(TESTS):
        return f"stack.append(stack.pop(-2) {TESTS[operand]} stack.pop())"
    return """
        stack.append(MATCHES(stack.pop(-2), stack.pop()))
        if stack[-1] is UNSET: raise TYPE_ERROR("catching classes that do not inherit from BaseException is not allowed")
        """


@instruction
def get_iter() -> str:
    """Takes a value; gives an iterator over it."""
    return "stack.append(ITER(stack.pop()))"


@instruction
def build_string(operand: int) -> str:
    """Takes so many texts; gives them as one."""
    return f"stack.append(JOIN(({popped(operand)}, )))" if operand else "stack.append(STR())"


@instruction
def format_value(operand: int) -> str:
    """Takes a format, a value; gives the value's text, once it is converted: not at all, by str, by ascii, by repr."""
    return f"stack.append(FORMAT({CONVERSIONS[operand] % 'stack.pop(-2)'}, stack.pop()))"


@instruction
def build_tuple(operand: int) -> str:
    """Takes so many values; gives a tuple of them, in which the top is last."""
    if operand > FEW:
        return f"stack[-{operand}:] = [TUPLE(stack[-{operand}:])]"
    return f"stack.append(({popped(operand)}{', ' if operand else ''}))"


@instruction
def build_list(operand: int) -> str:
    """Takes so many values; gives a list of them, in which the top is last."""
    return f"stack[-{operand}:] = [stack[-{operand}:]]" if operand else "stack.append([])"


@instruction
def build_set(operand: int) -> str:
    """Takes so many values; gives a set of them."""
    return f"stack[-{operand}:] = [SET(stack[-{operand}:])]" if operand else "stack.append(SET())"


def stars(count: int) -> str:
    """So many iterables from the top of the stack, the lowest first, each of them taken and gone through."""
    return ", ".join("*" + it for it in popped(count).split(", ") if it)


@instruction
def build_tuple_unpack(operand: int) -> str:
    """Takes so many iterables; gives a tuple of all that they hold, the lowest first."""
    return f"stack.append(({stars(operand)}{', ' if operand else ''}))"


@instruction
def build_list_unpack(operand: int) -> str:
    """Takes so many iterables; gives a list of all that they hold, the lowest first."""
    return f"stack.append([{stars(operand)}])"


@instruction
def build_set_unpack(operand: int) -> str:
    """Takes so many iterables; gives a set of all that they hold."""
    return f"stack.append({{{stars(operand)}}})" if operand else "stack.append(SET())"


@instruction
def build_map(operand: int) -> str:
    """Takes so many pairs of a value and, below it, its key; gives a dict of them, the lowest first."""
    words = popped(2 * operand).split(", ")
    return "stack.append({%s})" % ", ".join("%s: %s" % pair for pair in zip(words[::2], words[1::2]))


@instruction
def dict_update() -> str:
    """Takes a mapping, a dict; gives the dict with what the mapping holds."""
    return "stack.append({**stack.pop(-2), **stack.pop()})"


@instruction
def build_map_for_call(operand: int) -> str:
    """Takes so many mappings; gives a dict of what they hold, the lowest first. Raises TypeError where a key comes twice."""
    return f"""
        stack.append(KEYWORDS(stack, {operand}))
        if TYPE(stack[-1]) is TYPE_ERROR: raise stack.pop()
        """


@instruction
def build_slice(operand: int) -> str:
    """Takes, where the operand is 1, a step; then an end, a start; gives a slice."""
    return f"stack.append(SLICE({popped(2 + operand)}))"


@instruction
def list_append(operand: int) -> str:
    """Takes a value and appends it to the list so many places below what is then the top."""
    return f"stack[-{operand + 2}].append(stack.pop())"


@instruction
def set_add(operand: int) -> str:
    """Takes a value and adds it to the set so many places below what is then the top."""
    return f"stack[-{operand + 2}].add(stack.pop())"


@instruction
def map_add(operand: int) -> str:
    """Takes a value, a key; stores the value in the dict so many places below what is then the top."""
    return f"stack[-{operand + 2}][stack.pop()] = stack.pop()"


@instruction
def unpack_sequence(operand: int) -> str:
    """Takes an iterable; gives its values, the first on top. Raises ValueError where these are not so many."""
    if not operand:
        return "[] = stack.pop()"
    places = ", ".join("stack[-%d]" % it for it in range(1, operand + 1))
    return f"""
        stack[-1:-1] = [None] * {operand}
        [{places}] = stack.pop()
        """


@instruction
def unpack_ex(operand: int) -> str:
    """Takes an iterable; gives its first values, the first on top, then a list, then its last values. The operand's low
    byte counts the first ones, and what is above the last ones. Raises ValueError where these are too few."""
    before, after = operand & 0xFF, operand >> 8
    places = ["stack[-%d]" % it for it in range(1, before + after + 2)]
    places[before] = "*" + places[before]
    return f"""
        stack[-1:-1] = [None] * {before + after + 1}
        [{", ".join(places)}] = stack.pop()
        """


@instruction
def print_expr() -> str:
    """Takes a value and hands it to `sys.displayhook`."""
    return "SYSTEM.displayhook(stack.pop())"


@instruction
def setup_annotation() -> str:
    """Stores a dict under `__annotations__`, where there is nothing of that name."""
    return "SET_UP_ANNOTATIONS(LOCALS())"


# Jumps


@instruction
def jump(target: int) -> str:
    """Goes to the target."""
    return f"at = {target}; continue"


@instruction
def jump_if_true(target: int) -> str:
    """Takes a value; goes to the target where it is true."""
    return f"if stack.pop(): at = {target}; continue"


@instruction
def jump_if_false(target: int) -> str:
    """Takes a value; goes to the target where it is not true."""
    return f"if not stack.pop(): at = {target}; continue"


@instruction
def jump_if_true_or_pop(target: int) -> str:
    """Goes to the target where the top is true; else takes it."""
    return f"""
        if stack[-1]: at = {target}; continue
        del stack[-1]
        """


@instruction
def jump_if_false_or_pop(target: int) -> str:
    """Goes to the target where the top is not true; else takes it."""
    return f"""
        if not stack[-1]: at = {target}; continue
        del stack[-1]
        """


@instruction
def for_iter(target: int) -> str:
    """Gives the next value of the iterator on top; where it has none, takes the iterator and goes to the target."""
    return f"""
        stack.append(NEXT(stack[-1], UNSET))
        if stack[-1] is UNSET: del stack[-2:]; at = {target}; continue
        """


# Blocks. BREAK, CONTINUE and RETURN are ways on which blocks are left.


@instruction
def setup_loop() -> str:
    """Opens a block for a loop."""
    return "blocks.append(BLOCK(LOOP, LEN(stack)))"


@instruction
def setup_except(target: int) -> str:
    """Opens a block whose handler begins at the target, with the exception on top. It takes each raise."""
    return f"blocks.append(BLOCK(EXCEPT, LEN(stack), {target}))"


@instruction
def setup_finally(target: int) -> str:
    """Opens a block whose handler begins at the target. It takes each raise, `break`, `continue` and return."""
    return f"blocks.append(BLOCK(FINALLY, LEN(stack), {target}))"


@instruction
def setup_with(target: int) -> str:
    """Takes a context manager; gives its exit, what its enter answers; opens a finally block, with the exit below it."""
    return f"""
        stack.extend(EXIT_AND_ENTER(stack.pop()))
        if stack[-2] is UNSET: raise stack.pop()
        stack.append(stack.pop()())
        blocks.append(BLOCK(FINALLY, LEN(stack) - 1, {target}))
        """


@instruction
def pop_block() -> str:
    """Closes the innermost block, which is one of a loop, an except or a finally."""
    return "del blocks[-1]"


@instruction
def enter_finally() -> str:
    """Opens the block of a finally handler, which runs since the code reached it."""
    return "blocks.append(BLOCK(FINALLY_HANDLER, LEN(stack)))"


@instruction
def pop_exception() -> str:
    """Closes the block of an except handler: its exception is no longer the one that is handled."""
    return "CLOSE(blocks)"


@instruction
def end_finally(following: int, leaves: str) -> str:
    """Closes the block of a finally handler and goes on with why it ran: raises the exception again, goes on leaving
    blocks, or does nothing."""
    return f"""
        if blocks[-1].error is not None: raise
        at = GO_ON(stack, blocks, {following})
        if at < 0: {leaves}
        continue
        """


@instruction
def with_cleanup_start() -> str:
    """Takes the exit of a context manager and calls it, with the exception for which the handler runs or with None three
    times; gives its answer."""
    return "stack.append(stack.pop()(*EXIT_ARGUMENTS(blocks)))"


@instruction
def with_cleanup_finish(following: int, leaves: str) -> str:
    """Takes the answer of an exit and closes the block of the handler. A raise is dropped where the answer is true; else
    it goes on as `EndFinally` does."""
    return f"""
        if not stack.pop() and blocks[-1].error is not None: raise
        if blocks[-1].error is not None: CLOSE(blocks); at = {following}
        else: at = GO_ON(stack, blocks, {following})
        if at < 0: {leaves}
        continue
        """


@instruction
def break_(target: int) -> str:
    """Leaves the blocks up to that of the innermost loop, and that one, and goes to the target."""
    return f"at = LEAVE(stack, blocks, BREAK, {target}); continue"


@instruction
def continue_(target: int) -> str:
    """Leaves the blocks within the innermost loop, and goes to the target."""
    return f"at = LEAVE(stack, blocks, CONTINUE, {target}); continue"


@instruction
def return_value(leaves: str, has_handlers: bool) -> str:
    """Takes a value and leaves all blocks; the code ends with that value."""
    if not has_handlers:
        return leaves
    return f"""
        at = LEAVE(stack, blocks, RETURN, stack.pop())
        if at < 0: {leaves}
        continue
        """


@instruction
def return_const(constant: str, leaves: str, has_handlers: bool) -> str:
    """Leaves all blocks; the code ends with a constant."""
    return "stack.append(%s)\n%s" % (constant, return_value(leaves, has_handlers))


@instruction
def raise_(operand: int) -> str:
    """Raises: 0 takes an exception; 1 takes a cause, an exception; 2 raises what is handled, once more."""
    return ("raise stack.pop()", "raise stack.pop(-2) from stack.pop()", "raise")[operand]


# Calls


@instruction
def call_function_positional(operand: int, hooked: str) -> str:
    """Takes so many arguments, a function; gives what the function answers."""
    if operand > FEW:
        return f"""
            stack[-{operand}:] = [stack[-{operand}:]]
            stack.append({hooked % 'stack.pop(-2)'}(*stack.pop()))
            """
    return f"stack.append({hooked % popped(operand + 1).split(', ')[0]}({popped(operand)}))"


@instruction
def call_function_keyword(operand: int, hooked: str) -> str:
    """Takes a tuple of names, so many arguments, a function; gives what the function answers. The names are those of the
    last arguments. Raises TypeError where one stands twice."""
    return f"""
        stack.append(NAMED(stack, {operand}))
        if TYPE(stack[-1]) is TYPE_ERROR: raise stack.pop()
        {call_function_ex(1, hooked)}
        """


@instruction
def call_function_ex(operand: int, hooked: str) -> str:
    """Takes, where the operand is 1, a dict of named arguments; then a tuple of arguments, a function; gives what the
    function answers."""
    if operand:
        return f"stack.append({hooked % 'stack.pop(-3)'}(*stack.pop(-2), **stack.pop()))"
    return f"stack.append({hooked % 'stack.pop(-2)'}(*stack.pop()))"


@instruction
def call_method_positional(operand: int, hooked: str) -> str:
    """Takes so many arguments, and the three that `LoadMethod` gave; gives what is answered."""
    return f"""
        del stack[-{operand + 3}:-{operand + 1}]
        {call_function_positional(operand, hooked).strip()}
        """


@instruction
def call_method_keyword(operand: int, hooked: str) -> str:
    """Takes a tuple of names, so many arguments, and the three that `LoadMethod` gave; gives what is answered."""
    return f"""
        del stack[-{operand + 4}:-{operand + 2}]
        {call_function_keyword(operand, hooked).strip()}
        """


@instruction
def call_method_ex(operand: int, hooked: str) -> str:
    """Takes what `CallFunctionEx` takes but for the function, and the three that `LoadMethod` gave; gives the answer."""
    return f"""
        del stack[-{operand + 4}:-{operand + 2}]
        {call_function_ex(operand, hooked)}
        """


@instruction
def yield_value() -> str:
    """Takes a value and hands it out of the generator; gives what is sent for it."""
    return "stack.append((yield stack.pop()))"


@instruction
def yield_from() -> str:
    """Takes None, an iterator; hands out all that the iterator gives; gives what it returns."""
    return """
        del stack[-1]
        stack.append((yield from ONCE(stack.pop())))
        """


# Functions, classes, type parameters


@instruction
def make_function(operand: int) -> str:
    """Takes a qualified name, a code, and then what the operand counts: 1 a tuple of cells, 2 a dict of annotations, 16 a
    tuple of type parameters, 4 a dict of keyword-only defaults, 8 a tuple of the other defaults. Gives a function."""
    return f"stack.append(MAKE(GLOBALS(), stack, {operand}))"


@instruction
def load_build_class() -> str:
    """Gives the built-in that builds a class of the function of its body, its name and its bases."""
    return "stack.append(BUILTIN(GLOBALS(), '__build_class__'))"


@instruction
def type_var() -> str:
    """Takes a name; gives a type parameter."""
    return "stack.append(TYPE_VAR(stack.pop(), **INFERRED))"


@instruction
def type_var_with_bound() -> str:
    """Takes a name, a bound; gives a type parameter. A bound that is a tuple is a list of constraints."""
    return """
        stack.extend(BOUND(stack.pop(-2), stack.pop()))
        stack.append(TYPE_VAR(*stack.pop(-2), **stack.pop()))
        """


@instruction
def type_alias() -> str:
    """Takes a name, a tuple of type parameters, a value; gives a type alias."""
    return "stack.append(TYPE_ALIAS(stack.pop(), stack.pop(-2), type_params=stack.pop()))"


# Imports


@instruction
def import_name(text: str, names: str) -> str:
    """Takes a tuple of names or None, a level; gives the module that `__import__` answers."""
    return f"stack.append(BUILTIN(GLOBALS(), '__import__')({text}, GLOBALS(), {names}, stack.pop(), stack.pop()))"


@instruction
def import_nameless(names: str) -> str:
    """Takes a tuple of names or None, a level; gives the package that `__import__` answers for it."""
    return import_name("''", names)


@instruction
def import_from(text: str) -> str:
    """Gives an attribute of the module on top, or the module of that name within it. Raises ImportError."""
    return f"""
        stack.append(GETATTR(stack[-1], {text}, UNSET))
        if stack[-1] is UNSET: stack[-1] = MODULE_WITHIN(stack[-2], {text})
        if stack[-1] is UNSET: raise NO_NAME(stack[-2], {text})
        """


@instruction
def import_star() -> str:
    """Takes a module and stores its public names where the code runs."""
    return "IMPORT_STAR(LOCALS(), stack.pop())"
