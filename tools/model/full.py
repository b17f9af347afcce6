"""What the full view adds to the meaning of a tree: kinds of accesses, the names of closures in order, and the cells of classes."""
import scopes
FREE_CLASS = scopes.FREE_CLASS


class Full:
    def __init__(self, tree, python_order=True):
        self.scan = scopes.scan(tree, python_order)
        if self.scan.fault:
            raise self.scan.fault
        scopes.build(self.scan)
        self.resolver = scopes.Resolver(self.scan)
        self.by_node = {}

        def walk(s):
            self.by_node[(id(s.node), s.typ == 'TypeParams') if s.parent else None] = s
            for c in s.children:
                walk(c)
        walk(self.scan.root)

    def table(self, scope):
        return self.by_node[None if scope.parent is None else (id(scope.node), scope.kind.startswith('Hidden'))]

    def free(self, scope):
        return [n for n, y in self.table(scope).symbols.items() if y.scope == 'Free' or y.flags & FREE_CLASS]

    def cells(self, scope):
        return [n for n, y in self.table(scope).symbols.items() if y.scope == 'Cell']

    def kind(self, scope, fixed, name, usage):
        if fixed:
            return fixed
        t = self.table(scope)
        k = self.resolver.resolve(t, name)
        k = k[0] if isinstance(k, tuple) else k
        fun = t.typ not in ('Module', 'Class')
        if k == 'GlobalExplicit':
            return 'Global'
        if k in ('Free', 'Cell'):
            return 'ClassDeref' if usage == 'Load' and t.typ == 'Class' else 'Deref'
        if k == 'Local':
            return 'Fast' if fun else 'ByName'
        return 'Global' if fun else 'ByName'

    def closure(self, child):
        names = self.free(child)
        return ([('cells', tuple(names))], 1) if names else ([], 0)

    def class_end(self, scope, w):
        from answers import NONE
        if '__class__' not in self.cells(scope):
            return NONE
        c = ('cells', ('__class__',))
        w.events.append(('access', 'Store', '__classcell__', c, 'ByName', None))
        return c
