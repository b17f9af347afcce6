"""Whether a code object is sound: the flaws that walks over its units find, and the greatest height on them."""
import instr
from layout import WalkFault, edges, join


def walks(code, python_order=True):
    """(list of flaws, greatest height). A flaw is (unit, kind)."""
    n = len(code.instructions)
    sizes = {"Const": len(code.constants), "Name": len(code.names), "Var": len(code.varnames), "Cell": len(code.cellvars) + len(code.freevars)}
    state, todo, flaws, best = {}, [], set(), 0

    def put(frm, p, h, s):
        nonlocal best
        best = max(best, h)
        if h > code.max_stackdepth:
            flaws.add((frm, "HeightOutside"))
            return
        if p >= n or all(op == "ExtendedArg" for op, _ in code.instructions[p:]):
            flaws.add((frm, "PlaceOutside"))
            return
        old = state.get(p)
        try:
            new = (h, s) if old is None else join(old, (h, s))
        except WalkFault as w:
            flaws.add((p, str(w)))
            return
        if new != old:
            state[p] = new
            todo.append(p)
    put(0, 0, 0, ())
    while todo:
        p = todo.pop()
        h, s = state[p]
        arg, u = 0, p
        while code.instructions[u][0] == "ExtendedArg":
            arg = arg << 8 | code.instructions[u][1]
            u += 1
        op = code.instructions[u][0]
        arg = (arg << 8 | code.instructions[u][1]) & 0xFFFFFFFF
        if not instr.in_range(op, arg, sizes, python_order) or (instr.has_target(op) and arg >= n):
            flaws.add((p, "OperandOutside"))
            continue
        try:
            es = edges(op, arg, h, s)
        except WalkFault as w:
            flaws.add((p, {"HeightOutOfRange": "HeightOutside"}.get(str(w), str(w))))
            continue
        for jump, h2, s2 in es:
            put(p, arg if jump else u + 1, h2, s2)
    return sorted(flaws), best


def sound(code, python_order=True):
    return walks(code, python_order)[0] == []
