"""From blocks to a code object: what is refused, the walks over blocks, depth, arguments in cells, and the least widths of jumps."""
from dataclasses import dataclass, field
from typing import Optional
import code_objects as C
import instr

NULL = 2**32 - 1


@dataclass
class Info:
    op: str
    arg: int
    target: int
    loc: tuple


@dataclass
class Block:
    instructions: list = field(default_factory=list)
    next: int = NULL


class OrderedSet:
    """Insertion order, no repeats. Constants are told apart by structure (tags keep 1 and True apart)."""

    def __init__(self, xs=()):
        self.at = {}
        for x in xs:
            self.add(x)

    def add(self, x):
        return self.at.setdefault(x, len(self.at))

    def index(self, x):
        return self.at.get(x)

    def __len__(self):
        return len(self.at)

    def items(self):
        return tuple(self.at)


@dataclass
class CodeInfo:
    flags: int
    posonlyarg_count: int
    arg_count: int
    kwonlyarg_count: int
    source_path: str
    first_line_number: int
    obj_name: str
    blocks: list
    current_block: int = 0
    constants: OrderedSet = field(default_factory=OrderedSet)
    names: OrderedSet = field(default_factory=OrderedSet)
    varnames: OrderedSet = field(default_factory=OrderedSet)
    cells: OrderedSet = field(default_factory=OrderedSet)
    frees: OrderedSet = field(default_factory=OrderedSet)


class Refusal(Exception):
    def __init__(self, variant, block=None, place=None):
        super().__init__(variant, block, place)
        self.variant, self.block, self.place = variant, block, place


def chain_of(info):
    if not info.blocks:
        raise Refusal("NoBlocks")
    chain, met, b = [], set(), 0
    while True:
        chain.append(b)
        met.add(b)
        nxt = info.blocks[b].next
        if nxt == NULL:
            return chain
        if nxt >= len(info.blocks) or nxt in met:
            raise Refusal("BrokenChain", b)
        b = nxt


def check(info, chain, body, python_order):
    """The refusals before walks, in the order of the table."""
    inside = set(chain)
    places = [(b, i, x) for b in chain for i, x in enumerate(body[b])]
    sizes = {"Const": len(info.constants), "Name": len(info.names), "Var": len(info.varnames), "Cell": len(info.cells) + len(info.frees)}
    for b, i, x in places:
        if x.target != NULL and x.target not in inside:
            raise Refusal("TargetOutside", b, i)
    for b, i, x in places:
        if instr.has_target(x.op) and x.target == NULL:
            raise Refusal("JumpWithoutTarget", b, i)
    for b, i, x in places:
        if not instr.has_target(x.op) and x.target != NULL:
            raise Refusal("TargetOnOther", b, i)
    for b, i, x in places:
        if x.op == "ExtendedArg":
            raise Refusal("PrefixGiven", b, i)
    for b, i, x in places:
        if not instr.in_range(x.op, x.arg, sizes, python_order):
            raise Refusal("OperandOutside", b, i)
    if any(n >= 2**31 for n in list(sizes.values()) + [len(info.cells), len(info.frees)]):
        raise Refusal("TooManyNames")


class WalkFault(Exception):
    """The kind of walk fault: HeightOutOfRange, BlockMismatch."""


def edges(op, arg, height, shape):
    """The edges of one instruction: a list of (is_jump, height, shape). Shapes are tuples of (kind, height, marks)."""

    def need(*kinds):
        if not shape or shape[-1][0] not in kinds:
            raise WalkFault("BlockMismatch")
        return shape[-1]
    kept = shape
    if op == "PopBlock":
        need("Loop", "Except", "Finally")
        kept = shape[:-1]
    elif op == "PopException":
        need("ExceptHandler")
        kept = shape[:-1]
    elif op == "WithCleanupStart":
        need("FinallyHandler")
    elif op in ("EndFinally", "WithCleanupFinish"):
        top = need("FinallyHandler")
        if top[1] != height or ("exit" if op == "EndFinally" else "plain") in top[2]:
            raise WalkFault("BlockMismatch")
        kept = shape[:-1]
    elif op in ("Break", "Continue"):
        if not any(k == "Loop" for k, _, _ in shape):
            raise WalkFault("BlockMismatch")
    floor = kept[-1][1] if kept else 0

    def after(takes, gives, looks):
        if height < takes + looks or height - takes < floor or height - takes + gives >= 2**32:
            raise WalkFault("HeightOutOfRange")
        return height - takes + gives
    g, l = instr.gives(op, arg), instr.looks(op, arg)
    t = g - instr.stack_effect(op, arg)
    out = []
    fall = after(t, g, l)
    push = {"SetupLoop": "Loop", "SetupExcept": "Except", "SetupFinally": "Finally", "SetupWith": "Finally", "EnterFinally": "FinallyHandler"}.get(op)
    marks = {"SetupFinally": frozenset(["plain"]), "SetupWith": frozenset(["exit"]), "EnterFinally": frozenset(["open"])}.get(op, frozenset())
    if not instr.unconditional_branch(op):
        out.append((False, fall, kept + ((push, height, marks),) if push else kept))
    if instr.has_target(op):
        if op in ("Break", "Continue"):
            at = max(i for i, b in enumerate(shape) if b[0] == "Loop")
            above = shape[at + 1 :]
            if op == "Break":
                out.append((True, shape[at][1], shape[:at]))
            else:
                h = above[0][1] if above else height
                if above and above[0][0] == "Finally" and "exit" in above[0][2]:
                    h -= 1
                out.append((True, h, shape[: at + 1]))
        else:
            je = instr.stack_effect(op, arg, True)
            if op == "ForIter":
                h = after(1, 0, 0)
            elif op in ("JumpIfTrueOrPop", "JumpIfFalseOrPop"):
                h = after(1, 1, 0)
            elif op == "SetupWith":
                h = after(1, 1, 0)
            else:
                h = fall if op in ("Jump", "JumpIfTrue", "JumpIfFalse") else height + je
            assert h == height + je, op
            s = shape
            if op == "SetupExcept":
                s = shape + (("ExceptHandler", height, frozenset()),)
            elif op in ("SetupFinally", "SetupWith"):
                s = shape + (("FinallyHandler", height, marks),)
            out.append((True, h, s))
    return out


def join(old, new):
    """The two states of one place; marks join by union, since each mark goes its own way on every edge."""
    if old[0] != new[0]:
        raise WalkFault("UnevenHeights")
    if [b[:2] for b in old[1]] != [b[:2] for b in new[1]]:
        raise WalkFault("BlockMismatch")
    shape = tuple((k, h, m | m2) for (k, h, m), (_, _, m2) in zip(old[1], new[1]))
    if any({"plain", "exit"} <= m for _, _, m in shape):
        raise WalkFault("BlockMismatch")
    return (old[0], shape)


def walk(chain, body):
    """The greatest height on a walk; Refusal where one of the four conditions on walks holds."""
    nxt = {b: c for b, c in zip(chain, chain[1:])}
    state, todo, best = {}, [], 0

    def arrive(frm, b, h, s):
        while not body[b]:
            if b not in nxt:
                raise Refusal("NoEnd", b)
            b = nxt[b]
        put((b, 0), h, s)

    def put(p, h, s):
        nonlocal best
        best = max(best, h)
        old = state.get(p)
        try:
            new = (h, s) if old is None else join(old, (h, s))
        except WalkFault as w:
            raise Refusal(str(w), *p)
        if new != old:
            state[p] = new
            todo.append(p)
    arrive(None, chain[0], 0, ())
    while todo:
        p = todo.pop()
        b, i = p
        h, s = state[p]
        x = body[b][i]
        try:
            es = edges(x.op, x.arg, h, s)
        except WalkFault as w:
            raise Refusal(str(w), b, i)
        for jump, h2, s2 in es:
            if jump:
                arrive(p, x.target, h2, s2)
            elif i + 1 < len(body[b]):
                put((b, i + 1), h2, s2)
            elif b in nxt:
                arrive(p, nxt[b], h2, s2)
            else:
                best = max(best, h2)
                raise Refusal("NoEnd", b)
    return best, state


def cell2arg(info):
    total = (info.arg_count + info.kwonlyarg_count + (info.flags & C.HAS_VARARGS != 0) + (info.flags & C.HAS_VARKEYWORDS != 0))
    out = []
    for c in info.cells.items():
        i = info.varnames.index(c)
        out.append(i if i is not None and i < total else -1)
    return tuple(out) if any(i >= 0 for i in out) else None


def layout(chain, body):
    """Least jump widths: every jump starts at one unit and grows until its target's offset fits."""
    width = {(b, i): 1 if instr.has_target(x.op) else instr.instr_size(x.arg) for b in chain for i, x in enumerate(body[b])}
    while True:
        offset, at = {}, 0
        for b in chain:
            offset[b] = at
            at += sum(width[(b, i)] for i in range(len(body[b])))
        grown = False
        for b in chain:
            for i, x in enumerate(body[b]):
                if instr.has_target(x.op) and instr.instr_size(offset[x.target]) > width[(b, i)]:
                    width[(b, i)] = instr.instr_size(offset[x.target])
                    grown = True
        if not grown:
            return width, offset, at


def finalize_code(info, optimize, python_order=True):
    """A Code, or raises Refusal."""
    chain = chain_of(info)
    body = {}
    for b in chain:
        xs = info.blocks[b].instructions
        if optimize > 0:
            cut = next((i for i, x in enumerate(xs) if instr.unconditional_branch(x.op)), None)
            if cut is not None:
                xs = xs[: cut + 1]
        body[b] = xs
    check(info, chain, body, python_order)
    depth, _ = walk(chain, body)
    width, offset, units = layout(chain, body)
    instructions, locations = [], []
    for b in chain:
        for i, x in enumerate(body[b]):
            arg = offset[x.target] if instr.has_target(x.op) else x.arg
            for j in reversed(range(width[(b, i)])):
                byte = (arg >> (8 * j)) & 0xFF
                instructions.append((x.op if j == 0 else "ExtendedArg", byte))
                locations.append(x.loc)
    return C.Code(info.flags, info.posonlyarg_count, info.arg_count, info.kwonlyarg_count, info.source_path, info.first_line_number, info.obj_name,
                  depth, tuple(instructions), tuple(locations), info.constants.items(), info.names.items(), info.varnames.items(),
                  info.cells.items(), info.frees.items(), cell2arg(info))
