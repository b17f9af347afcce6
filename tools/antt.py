"""Reads the definitions and lemmas of crates, and the clauses of their functions, and says what each name in them leads to.

A name is read by its scope. What a binder binds (a telescope, a λ, a let, a pattern, a field of a record behind it, a
parameter of a function) hides what is defined or imported under the same name, and leads nowhere. The files are those in
specs/ and proofs/ that end in .antt, and those in src/ that end in .rt.
"""
import bisect
import pathlib
import re
from typing import Callable, Dict, FrozenSet, Iterator, List, NamedTuple, Optional, Sequence, Set, Tuple, Union


class Token(NamedTuple):
    """A word, a bracket or another mark, or a text in quotes; and where it stands in its file."""

    text: str
    line: int
    column: int


class Group(NamedTuple):
    """What stands between two brackets, and the token that opens it."""

    opening: Token
    nodes: "List[Node]"


Node = Union[Token, Group]


class Name(NamedTuple):
    """A name in a file of the repository, or one that another crate gives (`kit`), or what is declared in code (`code`)."""

    kind: str
    place: str
    name: str


Names = FrozenSet[str]
Noted = Callable[[Token, Name], None]

NO_NAMES: Names = frozenset()
TOKEN = re.compile(r'--[^\n]*|"(?:\\.|[^"\\\n])*"|\[\]|[()\[\]{},;]|«[^»\n]*»|[^\s()\[\]{},;"]+')
CLOSING = {"(": ")", "[": "]", "{": "}"}
MARKS = {"abbrev", "unfoldable", "opaque", "pattern", "pub"}
FIXITY = {"infix", "infixl", "infixr"}
# Words that mean something themselves: those of the language, its tactics, and what is built in.
BUILT_IN = frozenset("""
λ let in elim as record where unfold with → × : = ↦ | _ ? Type Unit tt absurd ⊥ ¬ . @ data pub mutual module deriving
do rw at simp search assumption cc omega grind hlevel first_of depth fits rules ← ∗ ⌜ ⌝ Prim coe hcom com fcoe fcom tcoe axiom unfolding unfoldable abbrev use mod open ruleset
""".split())
# Constructors of the kit that are passed on under these names.
KIT_MAKES = frozenset("[] ◌∷◌ zero suc true false Some None Ok Err pos negsuc refl inl inr alloc_error Less Equal Greater".split())
HOLE = "◌"


def tokens_of(text: str, line: int = 0, column: int = 0) -> Iterator[Token]:
    """The tokens of a text that begins at a place. The dot behind the binders of a λ is one of its own."""
    starts = [0] + [it.end() for it in re.finditer(r"\n", text)]
    for it in TOKEN.finditer(text):
        word = it.group()
        if word.startswith("--"):
            continue
        row = bisect.bisect_right(starts, it.start()) - 1
        at = it.start() - starts[row] + (column if row == 0 else 0)
        if len(word) > 1 and word.endswith(".") and not word.startswith('"'):
            yield Token(word[:-1], line + row, at)
            yield Token(".", line + row, at + len(word) - 1)
        else:
            yield Token(word, line + row, at)


def grouped(tokens: Sequence[Token]) -> List[Node]:
    """The same tokens with what stands between brackets as groups. A bracket that does not close ends with the tokens."""
    stack: List[Group] = [Group(Token("", 0, 0), [])]
    for token in tokens:
        if token.text in CLOSING:
            stack.append(Group(token, []))
            stack[-2].nodes.append(stack[-1])
        elif token.text in CLOSING.values():
            if len(stack) > 1:
                stack.pop()
        else:
            stack[-1].nodes.append(token)
    return stack[0].nodes


def start_of(node: Node) -> Token:
    """The token that a node begins with."""
    return node.opening if isinstance(node, Group) else node


def is_word(node: Node, *texts: str) -> bool:
    """Whether it is a token, and one of these if any are given."""
    return isinstance(node, Token) and (not texts or node.text in texts)


def place_of(nodes: Sequence[Node], text: str) -> int:
    """Where that token first stands among the nodes, or how many there are."""
    return next((at for at, node in enumerate(nodes) if is_word(node, text)), len(nodes))


def parted(nodes: Sequence[Node], mark: str) -> List[List[Node]]:
    """The nodes between those marks."""
    parts: List[List[Node]] = [[]]
    for node in nodes:
        if is_word(node, mark):
            parts.append([])
        else:
            parts[-1].append(node)
    return parts


def words_in(nodes: Sequence[Node]) -> Set[str]:
    """The words of these nodes, but not of groups within."""
    return {node.text for node in nodes if isinstance(node, Token)}


class Piece(NamedTuple):
    """Lines that begin at the indentation of their block, with those that follow and stand further in, or close a bracket."""

    first: int
    end: int
    tokens: List[Token]


class Definition:
    """A definition, a type with what makes it, a record with its fields, or a lemma."""

    def __init__(self, kind: str, names: List[str], piece: Piece, headers: List[Piece]) -> None:
        self.kind = kind
        self.names = names
        # The lines of the signature, and of each clause.
        self.pieces = [piece]
        # The lines of the blocks around it.
        self.headers = headers
        self.makes: List[str] = []

    @property
    def name(self) -> str:
        return self.names[0]

    @property
    def first(self) -> int:
        return self.pieces[0].first

    @property
    def end(self) -> int:
        return self.pieces[-1].end


class File:
    """A file of specs/ or proofs/: what it defines, and what its imports bring."""

    def __init__(self, project: "Project", path: str) -> None:
        self.project = project
        self.path = path
        text = project.read(path)
        self.lines = text.split("\n")
        self.tokens = list(tokens_of(text))
        self.rows = [token.line for token in self.tokens]
        self.definitions: List[Definition] = []
        self.by_name: Dict[str, Definition] = {}
        self.makers: Dict[str, Definition] = {}
        # What a name, the name of a module, and a part of an operator stand for.
        self.imports: Dict[str, Name] = {}
        self.modules: Dict[str, Name] = {}
        self.parts: Dict[str, str] = {}
        # The line where an operator's binding is said.
        self.fixities: Dict[str, int] = {}
        self.opens: List[Token] = []
        self.read_block(0, len(self.lines), [])
        for name in [*self.by_name, *self.makers, *self.imports]:
            if HOLE in name:
                for part in name.split(HOLE):
                    if part:
                        self.parts[part] = name

    # ---- how a file is laid out

    def pieces(self, start: int, end: int, indent: int) -> Iterator[Piece]:
        """The pieces of a block whose lines are indented so far."""
        at = start
        while at < end:
            line = self.lines[at]
            if not line.strip() or line.lstrip().startswith("--"):
                at += 1
                continue
            last = at + 1
            for k in range(at + 1, end):
                text = self.lines[k]
                if not text.strip() or text.lstrip().startswith("--"):
                    continue
                if len(text) - len(text.lstrip()) <= indent and text.lstrip()[0] not in ")]}":
                    break
                last = k + 1
            yield Piece(at, last, self.tokens[bisect.bisect_left(self.rows, at):bisect.bisect_left(self.rows, last)])
            at = last

    def indent_from(self, start: int, end: int) -> int:
        """How far the first line of a block is indented."""
        for line in self.lines[start:end]:
            if line.strip() and not line.lstrip().startswith("--"):
                return len(line) - len(line.lstrip())
        return 0

    def read_block(self, start: int, end: int, headers: List[Piece]) -> None:
        """Reads the definitions of a block."""
        current: Optional[Definition] = None
        for piece in self.pieces(start, end, self.indent_from(start, end)):
            words = [token.text for token in piece.tokens[:4]]
            plain = [word for word in words if word not in MARKS]
            if not plain:
                continue
            if plain[0] == "use":
                self.read_use(self.text_of(piece), piece.tokens)
            elif plain[0] in FIXITY and len(plain) > 2:
                self.fixities[plain[2]] = piece.first
            elif plain[0] in ("mod", "ruleset"):
                continue
            elif plain[0] == "open" and len(plain) > 2 and plain[2] == "use":
                self.opens += piece.tokens
            elif plain[0] in ("mutual", "module"):
                header = self.header_of(piece)
                self.read_block(header.end, piece.end, [*headers, header])
            elif plain[0] in ("data", "record") and len(plain) > 1 and plain[1] not in ("=", ":"):
                current = self.read_type(plain[0], plain[1], piece, headers)
            else:
                current = self.read_piece(piece, current, headers)

    def header_of(self, piece: Piece) -> Piece:
        """The head of a block: `mutual`, or all up to the `where` of a module."""
        is_module = any(token.text == "module" for token in piece.tokens[:3])
        last = next((token.line for token in piece.tokens if token.text == "where"), piece.first) if is_module else piece.first
        return Piece(piece.first, last + 1, [token for token in piece.tokens if token.line <= last])

    def text_of(self, piece: Piece) -> str:
        return "\n".join(self.lines[piece.first:piece.end])

    def read_piece(self, piece: Piece, current: Optional[Definition], headers: List[Piece]) -> Optional[Definition]:
        """A signature begins a definition; a clause, or what it unfolds, goes on with it."""
        nodes = grouped(piece.tokens)
        colon, equals = place_of(nodes, ":"), place_of(nodes, "=")
        if colon < equals and not is_word(nodes[0], "unfolding"):
            names = [node.text for node in nodes[:colon] if isinstance(node, Token) and node.text not in MARKS]
            return self.add(Definition("def", names, piece, headers))
        if current is not None:
            current.pieces.append(piece)
        return current

    def read_type(self, kind: str, name: str, piece: Piece, headers: List[Piece]) -> Definition:
        """A type; what makes it, if it is data, is defined with it."""
        made = Definition(kind, [name], piece, headers)
        if kind == "data":
            for nodes in self.parts_of_type(piece)[1]:
                made.makes += [node.text for node in nodes[:place_of(nodes, ":")] if isinstance(node, Token) and node.text not in MARKS]
        for one in made.makes:
            self.makers[one] = made
        return self.add(made)

    def parts_of_type(self, piece: Piece) -> Tuple[List[Node], List[List[Node]]]:
        """The head of a type, and the lines of its constructors or fields."""
        at = next((k for k, token in enumerate(piece.tokens) if token.text == "where"), len(piece.tokens))
        rest = piece.tokens[at + 1:]
        if not rest:
            return grouped(piece.tokens[:at]), []
        indent = self.indent_from(piece.tokens[at].line + 1, piece.end)
        parts: List[List[Token]] = []
        for token in rest:
            if token.column == indent or not parts:
                parts.append([])
            parts[-1].append(token)
        return grouped(piece.tokens[:at]), [grouped(part) for part in parts]

    def add(self, made: Definition) -> Definition:
        self.definitions.append(made)
        for name in made.names:
            self.by_name[name] = made
        return made

    def read_use(self, text: str, tokens: Sequence[Token]) -> None:
        """Reads an import: of names, or of a module."""
        found = re.match(r"(?:pub )?use ([^{]+?)(?:\.\{(.*)\})?$", " ".join(re.sub(r"\s+--.*$", "", text, flags=re.M).split()))
        if not found:
            return
        module, names = found.groups()
        if names is None:
            module, _, other = module.partition(" as ")
            self.modules[other.strip() or module.split(".")[-1]] = self.project.module(module.strip())
            return
        for one in names.split(","):
            name, _, other = (word.strip() for word in one.partition(" as "))
            self.imports[other or name] = within(self.project.module(module), name)

    # ---- what a name leads to

    def lead(self, word: str) -> Optional[Name]:
        """What a word leads to that no binder binds."""
        for name in (word, self.parts.get(word, "")):
            if name in self.by_name or name in self.makers:
                return Name("file", self.path, name)
            if name in self.imports:
                return self.imports[name]
        head, _, rest = word.partition(".")
        if not rest or not head:
            return None
        if head == "Rattle":
            module, _, name = word.rpartition(".")
            return within(self.project.module(module), name)
        if head in self.modules:
            return within(self.modules[head], rest.split(".")[0])
        return self.lead(head)

    def is_maker(self, word: str) -> bool:
        """Whether a word, in a pattern, is a constructor: a variable has no dot."""
        found = self.lead(word)
        return found is not None and (self.project.is_maker(found) or "." in word)

    # ---- the names that a definition cites

    def references(self, made: Definition, noted: Noted, unknown: Optional[Callable[[Token], None]] = None) -> None:
        """Tells of each name in a definition that leads somewhere, and of each that leads nowhere though nothing binds it."""
        reader = Reader(self.lead, self.is_maker, noted, unknown)
        local = reader.bound_in(made.headers)
        if made.kind == "def":
            for piece in made.pieces:
                reader.piece(piece, made.names, local)
            return
        head, parts = self.parts_of_type(made.pieces[0])
        colon = place_of(head, ":")
        inner = reader.telescope(head[:colon], local, skipped={made.name, *MARKS, "data", "record"})
        reader.term(head[colon:], inner)
        for nodes in parts:
            colon = place_of(nodes, ":")
            reader.term(nodes[colon + 1:], inner)
            if made.kind == "record":
                inner |= words_in(nodes[:colon]) - MARKS


def within(module: Name, name: str) -> Name:
    """A name in a module."""
    if module.kind == "file":
        return Name("file", module.place, name)
    return Name(module.kind, module.place, module.name + "." + name if module.name else name)


class Reader:
    """Walks over terms, and tells of each name that no binder binds."""

    def __init__(self, lead: Callable[[str], Optional[Name]], is_maker: Callable[[str], bool], noted: Noted, unknown: Optional[Callable[[Token], None]] = None) -> None:
        self.lead = lead
        self.is_maker = is_maker
        self.noted = noted
        self.unknown = unknown or (lambda token: None)

    def word(self, token: Token, local: Names) -> None:
        """A word in a term."""
        text = token.text
        if text in local or text.startswith((".", '"')) or text[0].isdigit() or text.partition(".")[0] in local:
            return
        found = self.lead(text)
        if found is not None:
            self.noted(token, found)
        elif text not in BUILT_IN and text.partition(".")[0] not in BUILT_IN:
            self.unknown(token)

    def bound_in(self, headers: Sequence[Piece]) -> Names:
        """The names that the heads of blocks bind."""
        local = NO_NAMES
        for header in headers:
            nodes = [node for node in grouped(header.tokens) if not is_word(node, "module", "mutual", "where", "_", *MARKS)]
            local = self.telescope(nodes, local)
        return local

    def telescope(self, nodes: Sequence[Node], local: Names, skipped: Set[str] = frozenset()) -> Names:  # type: ignore[assignment]
        """The names that a row of binders binds, beside those that are bound."""
        for node in nodes:
            if isinstance(node, Group):
                local = self.binder(node, local)
            elif node.text not in skipped:
                local |= {node.text}
        return local

    def binder(self, group: Group, local: Names) -> Names:
        """A binder with or without a type, or a pattern of a pair."""
        colon = place_of(group.nodes, ":")
        if colon == len(group.nodes):
            return local | self.pattern(group.nodes, local)
        self.term(group.nodes[colon + 1:], local)
        return local | words_in(group.nodes[:colon])

    def pattern(self, nodes: Sequence[Node], local: Names) -> Names:
        """The names that a pattern binds; its constructors are told of."""
        bound: Set[str] = set()
        for node in nodes:
            if isinstance(node, Group):
                inner = node.nodes
                if node.opening.text == "{" and len(inner) > 1 and is_word(inner[1], "="):
                    inner = inner[2:]
                bound |= self.pattern(inner, local)
            elif node.text in ("_", ",", ";", ".", "=") or node.text[0].isdigit() or node.text[0] == '"':
                continue
            elif self.is_maker(node.text):
                self.word(node, NO_NAMES)
            else:
                bound.add(node.text)
        return frozenset(bound)

    def piece(self, piece: Piece, names: Sequence[str], local: Names) -> None:
        """A signature, a clause, or what is unfolded."""
        tokens = piece.tokens
        nodes = grouped(tokens)
        if is_word(nodes[0], "unfolding"):
            self.term(nodes[1:], local)
            return
        colon, equals = place_of(nodes, ":"), place_of(nodes, "=")
        if colon < equals:
            inner = self.telescope([node for node in nodes[:colon] if isinstance(node, Group)], local)
            self.term(nodes[colon + 1:], inner)
            return
        own = set(names) | {part for name in names for part in name.split(HOLE)}
        inner = local | self.pattern([node for node in nodes[:equals] if not is_word(node, *own)], local)
        self.body(nodes[equals + 1:], tokens, inner)

    def body(self, nodes: Sequence[Node], tokens: Sequence[Token], local: Names) -> None:
        """The term of a clause, and what is defined behind `where`, which it may name."""
        at = place_of(nodes, "where")
        if at == len(nodes):
            self.term(nodes, local)
            return
        where = nodes[at]
        assert isinstance(where, Token)
        parts = local_pieces([token for token in tokens if (token.line, token.column) > (where.line, where.column)])
        named = frozenset(name for part in parts for name in signed(grouped(part.tokens)))
        self.term(nodes[:at], local | named)
        for part in parts:
            self.piece(part, sorted(named), local | named)

    def term(self, nodes: Sequence[Node], local: Names) -> None:
        """A term: each binder binds up to the next comma, semicolon or bar, or to the end."""
        base = local
        lets: List[Names] = []
        steps: List[Tuple[Token, Names]] = []
        at = 0
        while at < len(nodes):
            node = nodes[at]
            at += 1
            while steps and goes_on(steps[-1][0], start_of(node)):
                local |= steps.pop()[1]
            if at < len(nodes) and is_word(nodes[at], "←") and not is_word(node, ",", ";"):
                # a step of a `do`, which binds in those behind it
                steps.append((start_of(node), self.pattern([node], local)))
                at += 1
            elif isinstance(node, Group):
                local = self.group(node, local)
            elif node.text in (",", ";", "|"):
                local = base
            elif node.text == "λ":
                dot = at + place_of(nodes[at:], ".")
                local = self.telescope(nodes[at:dot], local)
                at = dot + 1
            elif node.text == "let":
                end = at + min(place_of(nodes[at:], ":"), place_of(nodes[at:], "="))
                lets.append(self.pattern(nodes[at:end], local))
                at = end
            elif node.text == "in" and lets:
                local |= lets.pop()
            else:
                self.word(node, local)

    def group(self, group: Group, local: Names) -> Names:
        """What stands between brackets; the names that are bound behind it."""
        nodes = group.nodes
        colon = place_of(nodes, ":")
        if group.opening.text in "({" and 0 < colon < len(nodes) and all(isinstance(node, Token) for node in nodes[:colon]) and not words_in(nodes[:colon]) & {"let", "λ"}:
            return self.binder(group, local)
        if group.opening.text == "{" and len(nodes) > 1 and is_word(nodes[1], "="):
            for field in parted(nodes, ";"):
                self.term(field[2:], local)
        elif group.opening.text == "[" and place_of(nodes, "↦") < len(nodes):
            for case in parted(nodes, "|"):
                arrow = place_of(case, "↦")
                self.term(case[arrow + 1:], local | self.pattern(case[:arrow], local))
        else:
            self.term(nodes, local)
        return local


def goes_on(step: Token, token: Token) -> bool:
    """Whether a token begins what stands behind a step of a `do`."""
    return token.line > step.line and token.column <= step.column


def signed(nodes: Sequence[Node]) -> List[str]:
    """The names that a signature gives a type; none where it is none."""
    colon = place_of(nodes, ":")
    if colon >= place_of(nodes, "="):
        return []
    return [node.text for node in nodes[:colon] if isinstance(node, Token) and node.text not in MARKS]


def local_pieces(tokens: Sequence[Token]) -> List[Piece]:
    """The pieces of a block behind `where`: each begins where the first does."""
    parts: List[List[Token]] = []
    for token in tokens:
        if not parts or (token.column <= parts[0][0].column and token.line > parts[-1][-1].line and token.text not in CLOSING.values()):
            parts.append([])
        parts[-1].append(token)
    return [Piece(part[0].line, part[-1].line + 1, part) for part in parts]


# ---- clauses of functions

class Clause(NamedTuple):
    """A clause of a function: its tokens, in the lines of its file."""

    tokens: List[Token]


class Function(NamedTuple):
    """A function with clauses: its name, the lines of its head, what its parameters are called, and its clauses."""

    name: str
    is_public: bool
    first: int
    begin: int
    end: int
    bound: Names
    clauses: List[Clause]


FUNCTION = re.compile(r"^([ \t]*)((?:pub(?:\([a-z]+\))? )?)(?:const |unsafe )*fn (\w+)", re.M)
KEYWORD = re.compile(r"\s*(?://[^\n]*\s*)*(ghost|requires|ensures)\b\*?\s*(\w*)\s*:?\s*\{")


def without_comments(text: str) -> str:
    """The same text with spaces for its comments and texts, so that brackets balance and places stay."""
    out = list(text)
    for it in re.finditer(r'//[^\n]*|b?"(?:\\.|[^"\\])*"|b?\'(?:\\[^\n]{1,10}?|[^\\\n])\'', text):
        for k in range(it.start(), it.end()):
            if text[k] != "\n":
                out[k] = " "
    return "".join(out)


def closing(text: str, start: int) -> int:
    """Where the bracket that opens at a place closes."""
    pairs = {"(": ")", "[": "]", "{": "}", "<": ">"}
    opened, depth = text[start], 0
    for at in range(start, len(text)):
        if text[at] == opened:
            depth += 1
        elif text[at] == pairs[opened] and not (opened == "<" and text[at - 1] == "-"):
            depth -= 1
            if depth == 0:
                return at
    return len(text) - 1


class Source:
    """A file of code: its functions with clauses, and what its ghost imports bring."""

    def __init__(self, project: "Project", path: str) -> None:
        self.project = project
        self.path = path
        self.text = project.read(path)
        self.lines = self.text.split("\n")
        self.blank = without_comments(self.text)
        self.starts = [0] + [it.end() for it in re.finditer("\n", self.text)]
        self.imports: Dict[str, Name] = {}
        self.parts: Dict[str, str] = {}
        self.modules: Dict[str, Name] = {}
        for line in re.findall(r"^\s*ghost use ([^;]+);", self.text, re.M):
            self.read_use(" ".join(line.split()))
        for name in self.imports:
            if HOLE in name:
                for part in name.split(HOLE):
                    self.parts[part] = name
        # The crates from which the code takes its names.
        self.crates: Dict[str, str] = {}
        for crate, names in re.findall(r"^use (\w+)::([^;]+);", self.blank, re.M):
            own = path.split("/")[1] if crate in ("crate", "super", "self") else crate
            self.crates.update({name: own for name in re.findall(r"\w+", names)})
        # The ghost members of the traits of the file, which their clauses name by themselves.
        self.members = set(re.findall(r"^\s+ghost (\w+): \{", self.blank, re.M))
        self.functions = list(self.read_functions())

    def read_use(self, text: str) -> None:
        """Reads a ghost import: of names, or of a module."""
        module, opened, names = text.partition(".{")
        if not opened:
            module, _, other = module.partition(" as ")
            self.modules[other.strip() or module.split(".")[-1]] = self.project.module(module.strip())
            return
        for one in names.rstrip("}").split(","):
            name, _, other = (word.strip() for word in one.partition(" as "))
            self.imports[other or name] = within(self.project.module(module), name)

    def place(self, at: int) -> Tuple[int, int]:
        line = bisect.bisect_right(self.starts, at) - 1
        return line, at - self.starts[line]

    def read_functions(self) -> Iterator[Function]:
        for it in FUNCTION.finditer(self.blank):
            at = it.end()
            bound: Set[str] = {"result", "self", "Self", *self.members}
            if self.blank[at:at + 1] == "<":
                end = closing(self.blank, at)
                bound |= set(re.findall(r"(?:^<|,)\s*(?:const )?(\w+)", self.blank[at:end]))
                at = end + 1
            opened = self.blank.find("(", at)
            end = closing(self.blank, opened)
            bound |= set(re.findall(r"(\w+)\s*:(?!:)", self.blank[opened:end]))
            clauses, at = self.read_clauses(end + 1, bound)
            if clauses:
                yield Function(it.group(3), it.group(2) == "pub ", self.first_of(self.place(it.start())[0]), it.start(), at, frozenset(bound), clauses)

    def first_of(self, line: int) -> int:
        """The first of the lines above a function that tell of it."""
        while line and self.lines[line - 1].strip().startswith(("///", "#[")):
            line -= 1
        return line

    def read_clauses(self, at: int, bound: Set[str]) -> Tuple[List[Clause], int]:
        """The clauses behind the type of a function, and where they end."""
        found: List[Clause] = []
        start = re.compile(r"\s*(?:->[^{;]*?)?(?:\bwhere\b[^{;]*?)?(?=\b(?:ghost|requires|ensures)\b|\{|;|$)", re.S).match(self.blank, at)
        at = start.end() if start else at
        while True:
            it = KEYWORD.match(self.blank, at)
            if not it:
                return found, at
            if it.group(1) == "ghost":
                bound.add(it.group(2))
            opened = it.end() - 1
            end = closing(self.blank, opened)
            line, column = self.place(opened + 1)
            text = re.sub(r"//[^\n]*", lambda it: " " * len(it.group()), self.text[opened + 1:end])
            found.append(Clause(list(tokens_of(text, line, column))))
            at = end + 1

    def lead(self, word: str) -> Optional[Name]:
        """What a word of a clause leads to that is no parameter."""
        for name in (word, self.parts.get(word, "")):
            if name in self.imports:
                return self.imports[name]
        head, _, rest = word.partition(".")
        if rest and head in self.imports:
            return self.imports[head]
        if rest and head in self.modules:
            return within(self.modules[head], rest.split(".")[0])
        if word in KIT_MAKES:
            return Name("kit", "std", "Prelude." + word)
        if head[:1].isupper():
            return Name("code", self.crates.get(head, self.path.split("/")[1]), word)
        return None

    def references(self, function: Function, noted: Noted, unknown: Optional[Callable[[Token], None]] = None) -> None:
        """Tells of each name in the clauses of a function that leads somewhere."""
        reader = Reader(self.lead, lambda word: self.project.is_maker(self.lead(word)), noted, unknown)
        for clause in function.clauses:
            reader.term(grouped(clause.tokens), function.bound)

    def head_of(self, function: Function) -> Tuple[int, int]:
        """The lines of a function up to its last clause, with what tells of it."""
        return function.first, self.place(function.end - 1)[0] + 1

    def function(self, name: str) -> Function:
        """The one function of that name."""
        found = [one for one in self.functions if one.name == name]
        if len(found) != 1:
            raise LookupError("%s has %d functions %s with clauses" % (self.path, len(found), name))
        return found[0]


# ---- all files

class Project:
    """The files of a repository, each read once."""

    def __init__(self, root: pathlib.Path) -> None:
        self.root = root
        self.files: Dict[str, File] = {}
        self.sources: Dict[str, Source] = {}
        self.modules: Dict[str, Name] = {}
        self.declared: Optional[Dict[str, List[Tuple[str, int, int]]]] = None

    def read(self, path: str) -> str:
        return (self.root / path).read_text(encoding="utf-8")

    def crates(self) -> List[str]:
        return sorted(path.name for path in (self.root / "crates").iterdir() if path.is_dir())

    def paths(self, crate: str, folder: str) -> List[str]:
        """The files of a folder of a crate: of proofs/ those of lemmas, which stand there or in the folder of a topic. The name
        of such a folder begins with a capital, as those of functions do not."""
        top = self.root / "crates" / crate / folder
        if folder == "src":
            return sorted(str(path.relative_to(self.root)) for path in top.glob("**/*.rt"))
        found = [path.relative_to(top).parts for path in top.glob("**/*.antt") if path.name != "Lib.antt"]
        listed = [parts for parts in found if folder == "specs" or all(part[0].isupper() for part in parts)]
        return sorted("/".join(["crates", crate, folder, *parts]) for parts in listed)

    def file(self, path: str) -> File:
        if path not in self.files:
            self.files[path] = File(self, path)
        return self.files[path]

    def source(self, path: str) -> Source:
        if path not in self.sources:
            self.sources[path] = Source(self, path)
        return self.sources[path]

    def module(self, name: str) -> Name:
        """What the path of a module stands for: a file, what is declared in code, or a module of the kit."""
        if name not in self.modules:
            self.modules[name] = self.read_module(name)
        return self.modules[name]

    def read_module(self, name: str) -> Name:
        parts = name.split(".")
        if parts[0] != "Rattle" or len(parts) < 4:
            return Name("kit", parts[0], ".".join(parts[1:]))
        crate, folder, rest = parts[1], parts[2], parts[3:]
        if not (self.root / "crates" / crate).is_dir():
            return Name("kit", crate, ".".join(rest))
        for count in range(len(rest), 0, -1):
            path = "crates/%s/%s/%s.antt" % (crate, folder, "/".join(rest[:count]))
            if (self.root / path).exists():
                return Name("file", path, ".".join(rest[count:]))
        return Name("code", crate, ".".join(rest[1:] if rest[0] == "declared" else rest))

    def find(self, name: Name) -> Optional[Tuple[str, Definition]]:
        """The definition that a name of a file leads to, behind files that pass it on."""
        at: Optional[Name] = name
        for _ in range(9):
            if at is None or at.kind != "file":
                return None
            file = self.file(at.place)
            made = file.by_name.get(at.name) or file.makers.get(at.name)
            if made is not None:
                return at.place, made
            at = file.imports.get(at.name)
        return None

    def last(self, name: Name) -> Name:
        """The same name without files that pass it on."""
        for _ in range(9):
            if name.kind != "file":
                return name
            file = self.file(name.place)
            if name.name in file.by_name or name.name in file.makers or name.name not in file.imports:
                return name
            name = file.imports[name.name]
        return name

    def is_maker(self, name: Optional[Name]) -> bool:
        """Whether a name is that of a constructor. Of a ported crate no other name stands in a pattern."""
        if name is None:
            return False
        name = self.last(name)
        if name.kind == "file":
            return name.name in self.file(name.place).makers
        if name.kind == "code":
            return "TheVariants" in name.name or "TheOpen" in name.name
        return name.place != "std" or name.name.rpartition(".")[2] in KIT_MAKES or "TheVariants" in name.name

    def declarations(self) -> Dict[str, List[Tuple[str, int, int]]]:
        """Where each type of the code is declared: its file, and its lines with what tells of it above them."""
        if self.declared is None:
            self.declared = {}
            for crate in self.crates():
                for path in self.paths(crate, "src"):
                    text = self.read(path)
                    for it in DECLARED.finditer(text):
                        line = text.count("\n", 0, it.start())
                        self.declared.setdefault(it.group(1), []).append((path, line, line + it.group().count("\n") + 1))
        return self.declared

    def is_declared(self, name: str) -> bool:
        return name in self.declarations()

    def declaration(self, name: Name) -> Optional[Tuple[str, str, int, int]]:
        """Where a name of the code is declared: the file, the type, and its lines. A name without modules is that of its
        crate, or the only one."""
        parts = [part for part in name.name.split(".") if part != "TheVariants"]
        for count in range(len(parts), 0, -1):
            for path, first, end in self.declarations().get(parts[count - 1], []):
                if path in module_paths(name.place, parts[:count - 1]):
                    return path, parts[count - 1], first, end
        found = self.declarations().get(parts[0], [])
        own = [one for one in found if one[0].split("/")[1] == name.place]
        for some in (own, found):
            if len(some) == 1:
                path, first, end = some[0]
                return path, parts[0], first, end
        return None


DECLARED = re.compile(r"^(?:(?:///|#\[)[^\n]*\n)*(?:pub(?:\([a-z]+\))? )?(?:enum|struct|type|trait) (\w+)\b[^;{]*?(?:;|\{(?:[^\n]*\}$|.*?^\}))", re.M | re.S)


def module_paths(crate: str, modules: Sequence[str]) -> Tuple[str, ...]:
    """The files that may hold a module of a crate."""
    inner = "/".join(modules)
    top = "crates/%s/src/" % crate
    return (top + inner + ".rt", top + inner + "/mod.rt") if inner else (top + "lib.rt",)
