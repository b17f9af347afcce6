"""The compile side as one call, and its code compared with the code of the forms."""
from emit import compile_top
import formcode, meaning, scopes


def compile(tree, mode='exec', level=0, python_order=True):
    return compile_top(tree, 'p', mode, level, python_order)


FIELDS = 'first_line_number locations obj_name flags posonlyarg_count arg_count kwonlyarg_count instructions names varnames cellvars freevars cell2arg'.split()


def differ(a, b, path=''):
    """The first field where two codes differ, depth aside."""
    for f in FIELDS:
        if getattr(a, f) != getattr(b, f):
            return f'{path}/{a.obj_name}.{f}', getattr(a, f), getattr(b, f)
    if len(a.constants) != len(b.constants):
        return f'{path}/{a.obj_name}.constants', a.constants, b.constants
    for x, y in zip(a.constants, b.constants):
        if x[0] == y[0] == 'code':
            d = differ(x[1], y[1], path + '/' + a.obj_name)
            if d:
                return d
        elif x != y:
            return f'{path}/{a.obj_name}.constants', x, y
    return None
