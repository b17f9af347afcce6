"""The instructions of a code, its blocks as a graph, and the height of the stack at each of its units.

A block is a run of instructions that a run enters at the first and leaves at the last. Nothing is proved of this module.
"""
from __future__ import annotations

from typing import Dict, Iterable, List, NamedTuple, Optional, Sequence, Tuple

from .flow import LABELS, Flow, flow_of

Unit = Tuple[str, int]
"""A unit of code: the name of its instruction, and a byte of its operand."""


class Instruction(NamedTuple):
    """An instruction with its prefixes. Units are counted from 0."""

    start: int
    """The first unit, a prefix where there is one; jumps lead there."""
    unit: int
    """The unit that has the name."""
    name: str
    operand: int
    """The whole operand."""

    @property
    def following(self) -> int:
        """The unit behind it."""
        return self.unit + 1

    @property
    def target(self) -> Optional[int]:
        """The unit that it jumps to, or the handler that it names; None where it has no label."""
        return self.operand if self.name in LABELS else None


class Edge(NamedTuple):
    """A way from one block to another."""

    source: int
    """The unit of the instruction that leads there, the one with the name."""
    target: int
    """The first unit of the block that it leads to."""
    kind: str
    """`next`, `jump`, or `raise`: to the handler that a setup names."""
    label: str
    """When it is taken: `true`, `false`, `ended`, `raised`; empty where it always is."""


class Block(NamedTuple):
    """Instructions that follow one another."""

    instructions: Tuple[Instruction, ...]
    edges: Tuple[Edge, ...]
    """The ways out, the one to the next block first."""

    @property
    def start(self) -> int:
        """Its first unit, which names it."""
        return self.instructions[0].start

    @property
    def end(self) -> int:
        """The unit behind its last."""
        return self.instructions[-1].following


class State(NamedTuple):
    """What is known before an instruction: the height of the stack, and the open blocks, the innermost first."""

    height: int
    blocks: Tuple[Tuple[str, int], ...]
    """The kind of each, and the height at which it was opened."""


class Heights(NamedTuple):
    """The heights of a code, in values."""

    before: Dict[int, int]
    """By the first unit of an instruction. What no walk comes to has none."""
    depth: int
    """The greatest height on a walk."""


def instructions_of(units: Sequence[Unit]) -> List[Instruction]:
    """The instructions of a code. Of an operand the last four bytes count; prefixes at the end are none."""
    found = []
    start, operand = 0, 0
    for at, (name, byte) in enumerate(units):
        operand = (operand << 8 | byte) & 0xFFFFFFFF
        if name != "ExtendedArg":
            found.append(Instruction(start, at, name, operand))
            start, operand = at + 1, 0
    return found


# When an instruction jumps, and when the next one follows.
LABELS_OF_EDGES = {
    "JumpIfTrue": ("true", "false"),
    "JumpIfTrueOrPop": ("true", "false"),
    "JumpIfFalse": ("false", "true"),
    "JumpIfFalseOrPop": ("false", "true"),
    "ForIter": ("ended", "a value"),
    "SetupExcept": ("raised", ""),
    "SetupFinally": ("raised", ""),
    "SetupWith": ("raised", ""),
}


def edges_of(instruction: Instruction) -> Tuple[Edge, ...]:
    """The ways on from an instruction, to the next one first."""
    jumped, fallen = LABELS_OF_EDGES.get(instruction.name, ("", ""))
    found = []
    if flow_of(instruction.name, instruction.operand).falls is not None:
        found.append(Edge(instruction.unit, instruction.following, "next", fallen))
    if instruction.target is not None:
        kind = "raise" if jumped == "raised" else "jump"
        found.append(Edge(instruction.unit, instruction.target, kind, jumped))
    return tuple(found)


def blocks_of(units: Sequence[Unit]) -> List[Block]:
    """The blocks of a code, in the order of its units. Each unit but prefixes at the end is in one of them."""
    instructions = instructions_of(units)
    begins = {it.target for it in instructions} | {0}
    begins.update(it.following for it in instructions if it.target is not None or not has_next(it))
    found: List[Block] = []
    run: List[Instruction] = []
    for instruction in instructions:
        if run and instruction.start in begins:
            found.append(block_of(run))
            run = []
        run.append(instruction)
    if run:
        found.append(block_of(run))
    return found


def has_next(instruction: Instruction) -> bool:
    """Whether the next instruction may follow."""
    return flow_of(instruction.name, instruction.operand).falls is not None


def block_of(run: List[Instruction]) -> Block:
    """The block of instructions that follow one another."""
    return Block(tuple(run), edges_of(run[-1]))


def heights_of(units: Sequence[Unit]) -> Heights:
    """The heights of a code that is sound, as each that the program writes and each that `unpack` takes.

    Walks come to a unit with one height then. Where two differ a ValueError names the unit.
    """
    by_start = {it.start: it for it in instructions_of(units)}
    known = {0: State(0, ())}
    left, depth = [0], 0
    while left:
        at = left.pop()
        instruction = by_start[at]
        for unit, state in states_behind(instruction, known[at]):
            depth = max(depth, state.height)
            if unit not in known:
                known[unit] = state
                left.append(unit)
            elif known[unit].height != state.height:
                raise ValueError("unit %d: uneven heights" % unit)
    return Heights({unit: state.height for unit, state in known.items()}, depth)


def states_behind(instruction: Instruction, state: State) -> Iterable[Tuple[int, State]]:
    """The units that an instruction leads to, each with the state there."""
    flow = flow_of(instruction.name, instruction.operand)
    if flow.falls is not None:
        blocks = state.blocks[1:] if flow.closes else state.blocks
        opened = ((flow.opens, state.height),) if flow.opens else ()
        yield instruction.following, State(state.height - flow.falls.takes + flow.falls.gives, opened + blocks)
    if instruction.target is not None:
        yield instruction.target, jumped(instruction.name, flow, state)


def jumped(name: str, flow: Flow, state: State) -> State:
    """The state where an instruction jumps to."""
    if flow.jumps is not None:
        opened = ((flow.handler, state.height),) if flow.handler else ()
        return State(state.height - flow.jumps.takes + flow.jumps.gives, opened + state.blocks)
    height = state.height
    for at, (kind, opened_at) in enumerate(state.blocks):
        if kind == "loop":
            return State(opened_at, state.blocks[at + 1 :]) if name == "Break" else State(height, state.blocks[at:])
        # The exit of a `with` lies below its block, and goes with it.
        height = opened_at - 1 if kind == "with" else opened_at
    raise ValueError("unit %d: no loop" % state.height)
