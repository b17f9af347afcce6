"""The listing of a code object (docs/LISTING.md)."""
import instr
from shapes import quote, constant_text


def detail(code, op, arg):
    """The detail of a whole operand, or None where its kind has none."""
    kind = instr.operand_kind(op)

    def entry(table, text):
        return text(table[arg]) if arg < len(table) else "?"
    if kind == "Const":
        return entry(code.constants, constant_text)
    if kind == "Name":
        return entry(code.names, quote)
    if kind == "Var":
        return entry(code.varnames, quote)
    if kind == "Cell":
        return entry(code.cellvars + code.freevars, quote)
    if kind == "Label":
        return f"to {arg}"
    if kind in instr.CASES:
        return entry(instr.CASES[kind], str)
    return None


def listing(code):
    line = "-" if code.first_line_number is None else code.first_line_number
    out = [f"code {quote(code.obj_name)} from {quote(code.source_path)} line {line} flags {code.flags} "
           f"args {code.posonlyarg_count} {code.arg_count} {code.kwonlyarg_count} depth {code.max_stackdepth}"]
    for head, table, text in (("constants", code.constants, constant_text), ("names", code.names, quote), ("varnames", code.varnames, quote),
                              ("cells", code.cellvars, quote), ("free", code.freevars, quote)):
        if table:
            out.append(f"{head}: " + ", ".join(text(x) for x in table))
    if code.cell2arg is not None:
        out.append("cell2arg: " + ", ".join(str(i) for i in code.cell2arg))
    whole = 0
    for i, (op, byte) in enumerate(code.instructions):
        whole = (whole << 8 | byte) & 0xFFFFFFFF
        loc = "%d:%d" % code.locations[i] if i < len(code.locations) else "-:-"
        line = f"{i} {loc} {op}"
        if instr.operand_kind(op) != "None":
            line += f" {byte}"
        d = detail(code, op, whole)
        if d is not None:
            line += " " + d
        out.append(line)
        if op != "ExtendedArg":
            whole = 0
    text = "\n".join(out) + "\n"
    return text + "".join(listing(c) for c in code.children())
