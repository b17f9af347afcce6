#!/usr/bin/env python3
"""Writes a book of the contracts, definitions and lemmas of all crates, in which each word leads to its definition.

usage: book.py --to FOLDER

FOLDER gets a page for each crate, one for the definitions of the kit that are cited, `index.html`, which begins with the
contracts of the headline and of the program, and one small script for the search by name. A page has the contracts of functions, the types that
they declare, the definitions and the lemmas; each says where it is used. Open index.html; nothing else is needed.
"""
import argparse
import collections
import html
import html.parser
import json
import pathlib
import re
import sys
import urllib.parse
from typing import Dict, Iterable, List, NamedTuple, Optional, Set, Tuple

import antt
import crates_table
import definitions

# What the first page begins with.
FIRST = (("The headline", definitions.HEADLINE), ("The program", definitions.RUN))
# Of a definition of the kit that is used in more places these are not listed.
MANY = 100
ROOT = pathlib.Path(__file__).resolve().parent.parent
STYLE = """
body { font: 16px/1.5 sans-serif; margin: 0 auto; max-width: 72em; padding: 1em; color: #222; background: #fff; }
pre { background: #f6f6f4; padding: .6em .8em; overflow-x: auto; font: 13px/1.45 monospace; margin: .3em 0; border-left: 3px solid #ccd; }
pre a { color: #124a8a; text-decoration: none; } pre a:hover { text-decoration: underline; }
pre .c { color: #60705c; } pre .n { font-weight: bold; }
[id] { scroll-margin-top: 3.5em; }
:target { background: #fff3c4; }
details { font-size: 14px; margin: 0 0 1em 0; color: #555; } summary { cursor: pointer; }
nav { position: sticky; top: 0; background: #fff; border-bottom: 1px solid #ccc; padding: .4em 0; z-index: 1; }
#found { position: absolute; background: #fff; border: 1px solid #999; max-height: 24em; overflow: auto; padding: 0 .6em; }
#found:empty { display: none; } #found a { display: block; }
h3 { margin-bottom: .2em; }
"""
SCRIPT = """
const box = document.getElementById("search"), found = document.getElementById("found");
function show() {
    const word = box.value.trim().toLowerCase();
    const ranked = word ? NAMES.filter(one => one[0].toLowerCase().includes(word)) : [];
    ranked.sort((a, b) => (a[0].length - b[0].length) || (a[0] < b[0] ? -1 : 1));
    found.textContent = "";
    for (const [name, where, link] of ranked.slice(0, 60)) {
        const line = document.createElement("a");
        line.href = link;
        line.textContent = name + "  (" + where + ")";
        found.append(line);
    }
}
box.addEventListener("input", show);
box.addEventListener("keydown", event => { if (event.key === "Enter" && found.firstChild) location.href = found.firstChild.href; });
found.addEventListener("click", () => { found.textContent = ""; });
"""


class Entry(NamedTuple):
    """Something that the book shows: what kind it is, its name, the page of its crate, and its anchor there."""

    kind: str
    name: str
    page: str
    anchor: str


class Links(NamedTuple):
    """What the words of a file lead to, by line and column: a token, and the entry; and the words that are defined there."""

    words: Dict[Tuple[int, int], Tuple[str, Entry]]
    defined: Dict[Tuple[int, int], Tuple[str, str]]


def link(to: Entry, page: str) -> str:
    """The address of an entry, from a page."""
    anchor = "#" + urllib.parse.quote(to.anchor)
    return anchor if to.page == page else to.page + anchor


class Book:
    """All entries, what each word leads to, and where each entry is used."""

    def __init__(self, project: antt.Project) -> None:
        self.project = project
        self.entries: Dict[Tuple[str, str], Entry] = {}
        self.kit: Dict[Tuple[str, str], Entry] = {}
        self.links: Dict[str, Links] = {}
        self.uses: Dict[Entry, Set[Entry]] = collections.defaultdict(set)
        self.functions: Dict[Tuple[str, int], Entry] = {}
        self.read_entries()
        self.read_links()

    # ---- entries

    def read_entries(self) -> None:
        """Names all that there is to be shown."""
        for crate in self.project.crates():
            for path in self.project.paths(crate, "specs") + self.project.paths(crate, "proofs"):
                module = module_of(path)
                for made in self.project.file(path).definitions:
                    kind = "lemma" if "/proofs/" in path else "definition"
                    for name in [*made.names, *made.makes]:
                        self.entries.setdefault((path, name), Entry(kind, name, crate + ".html", "%s:%s" % (module, name)))
            for path in self.project.paths(crate, "src"):
                self.read_source(crate, path)
        for name, places in self.project.declarations().items():
            for path, first, _ in places:
                self.entries[path, name] = Entry("type", name, path.split("/")[1] + ".html", "type/%s:%s" % (module_of(path), name))

    def read_source(self, crate: str, path: str) -> None:
        """Names the functions of a file of code that have clauses. Those of one name are told apart by numbers."""
        seen: Dict[str, int] = collections.Counter()
        for function in self.project.source(path).functions:
            seen[function.name] += 1
            number = "" if seen[function.name] == 1 else "~%d" % seen[function.name]
            self.functions[path, function.begin] = Entry("function", function.name, crate + ".html", "fn/%s:%s%s" % (module_of(path), function.name, number))

    def entry(self, name: antt.Name) -> Optional[Entry]:
        """What a name leads to."""
        name = self.project.last(name)
        if name.kind == "file":
            return self.entries.get((name.place, name.name))
        if name.kind == "code":
            at = self.project.declaration(name)
            return self.entries.get((at[0], at[1])) if at else None
        short = definitions.kit_word(name.name)
        return self.kit.setdefault((name.place, short), Entry("kit", short, "kit.html", "%s:%s" % (name.place, short)))

    # ---- links and uses

    def read_links(self) -> None:
        for crate in self.project.crates():
            for path in self.project.paths(crate, "specs") + self.project.paths(crate, "proofs"):
                self.links[path] = self.links_of_file(path)
            for path in self.project.paths(crate, "src"):
                self.links[path] = self.links_of_source(path)

    def note(self, words: Dict[Tuple[int, int], Tuple[str, Entry]], user: Entry, token: antt.Token, name: antt.Name) -> None:
        """Keeps what a word of an entry leads to."""
        to = self.entry(name)
        if to is not None and to != user:
            words[token.line, token.column] = (token.text, to)
            self.uses[to].add(user)

    def links_of_file(self, path: str) -> Links:
        file = self.project.file(path)
        found = Links({}, {})
        for made in file.definitions:
            user = self.entries[path, made.name]
            file.references(made, lambda token, name: self.note(found.words, user, token, name))
            for name in [*made.names, *made.makes]:
                at = place_in(made, name)
                if at is not None:
                    found.defined[at.line, at.column] = (name, self.entries[path, name].anchor)
        return found

    def links_of_source(self, path: str) -> Links:
        source = self.project.source(path)
        found = Links({}, {})
        for function in source.functions:
            user = self.functions[path, function.begin]
            source.references(function, lambda token, name: self.note(found.words, user, token, name))
        return found

    # ---- text

    def code(self, lines: List[str], first: int, end: int, links: Links, page: str, comment: str) -> str:
        """Lines of a file, with a link at each word that leads somewhere."""
        by_line: Dict[int, List[Tuple[int, str, str]]] = collections.defaultdict(list)
        for (line, column), (text, to) in links.words.items():
            if first <= line < end:
                by_line[line].append((column, text, '<a href="%s">%s</a>' % (html.escape(link(to, page)), html.escape(text))))
        for (line, column), (text, anchor) in links.defined.items():
            if first <= line < end:
                by_line[line].append((column, text, '<span class="n" id="%s">%s</span>' % (html.escape(anchor), html.escape(text))))
        return "\n".join(marked_line(lines[line], sorted(by_line[line]), comment) for line in range(first, end))

    def used(self, entry: Entry, page: str) -> str:
        """Where an entry is used."""
        users = sorted(self.uses.get(entry, ()), key=lambda one: (one.page != page, one.page, one.kind, one.name, one.anchor))
        if not users:
            return ""
        if entry.kind == "kit" and len(users) > MANY:
            return "<p>used in %d places</p>" % len(users)
        listed = ", ".join('<a href="%s">%s</a>%s' % (html.escape(link(one, page)), html.escape(one.name), "" if one.page == page else " (%s)" % one.page[:-5]) for one in users)
        return "<details><summary>used in %d %s</summary>%s</details>" % (len(users), "place" if len(users) == 1 else "places", listed)


def module_of(path: str) -> str:
    """The module of a file within its crate; proofs/ stands before those of lemmas."""
    _, _, folder, rest = path.split("/", 3)
    module = re.sub(r"\.(antt|rt)$", "", rest)
    return "proofs/" + module if folder == "proofs" else module


def place_in(made: antt.Definition, name: str) -> Optional[antt.Token]:
    """The token by which a name is defined."""
    return next((token for token in made.pieces[0].tokens if token.text == name), None)


def marked_line(line: str, marks: List[Tuple[int, str, str]], comment: str) -> str:
    """A line with some of its words marked, and its comment."""
    out, at = [], 0
    for column, text, mark in marks:
        if column >= at and line[column:column + len(text)] == text:
            out += [html.escape(line[at:column]), mark]
            at = column + len(text)
    rest = line[at:]
    begin = re.search(r"(?:^|\s)%s" % comment, rest)
    if begin:
        return "".join(out) + html.escape(rest[:begin.start()]) + '<span class="c">%s</span>' % html.escape(rest[begin.start():])
    return "".join(out) + html.escape(rest)


# ---- pages

def page_text(title: str, body: Iterable[str]) -> str:
    """A whole page."""
    head = '<!DOCTYPE html>\n<html lang="en"><head><meta charset="utf-8"><title>%s</title><style>%s</style></head>\n<body>' % (html.escape(title), STYLE)
    nav = '<nav><a href="index.html">pyc</a> &middot; <input id="search" placeholder="search by name" autocomplete="off"><div id="found"></div></nav>'
    return "\n".join([head, nav, "<h1>%s</h1>" % html.escape(title), *body, '<script src="book.js"></script>', "</body></html>", ""])


def told(project: antt.Project, crate: str) -> str:
    """What the README of a crate says first."""
    path = project.root / "crates" / crate / "README.md"
    if not path.exists():
        return ""
    found = re.search(r"^(?!#)\S.*$", path.read_text(encoding="utf-8"), re.M)
    return found.group() if found else ""


def plain(text: str) -> str:
    """A line of Markdown as HTML: what stands between backticks is code."""
    return re.sub(r"`([^`]*)`", r"<code>\1</code>", html.escape(text))


def function_part(book: Book, path: str, function: antt.Function, page: str) -> List[str]:
    """A function with its clauses."""
    source = book.project.source(path)
    entry = book.functions[path, function.begin]
    first, end = source.head_of(function)
    text = book.code(source.lines, first, end, book.links[path], page, "//")
    return ['<pre id="%s">%s</pre>' % (html.escape(entry.anchor), text)]


def contracts(book: Book, crate: str, page: str) -> List[str]:
    """The functions of a crate that have clauses, the public ones first."""
    out: List[str] = []
    for title, public in (("Contracts of public functions", True), ("Contracts of other functions", False)):
        part: List[str] = []
        for path in book.project.paths(crate, "src"):
            found = [function for function in book.project.source(path).functions if function.is_public == public]
            if found:
                part.append("<h3>%s</h3>" % html.escape(path[len("crates/"):]))
                for function in found:
                    part += function_part(book, path, function, page)
        if part:
            out += ["<h2>%s</h2>" % title, *part]
    return out


def types(book: Book, crate: str, page: str) -> List[str]:
    """The types that the code of a crate declares."""
    found = sorted((path, first, end, name) for name, places in book.project.declarations().items() for path, first, end in places if path.split("/")[1] == crate)
    out = ["<h2>Types of the code</h2>"] if found else []
    for path, first, end, name in found:
        lines = book.project.read(path).split("\n")[first:end]
        entry = book.entries[path, name]
        out += ['<pre id="%s">%s</pre>' % (html.escape(entry.anchor), "\n".join(marked_line(line, [], "//") for line in lines)), book.used(entry, page)]
    return out


def defined(book: Book, crate: str, folder: str, page: str) -> List[str]:
    """The definitions or the lemmas of a crate, file by file."""
    paths = book.project.paths(crate, folder)
    out: List[str] = []
    for path in definitions.in_order(book.project, paths):
        file = book.project.file(path)
        if not file.definitions:
            continue
        out += ["<h3>%s</h3>" % html.escape(module_of(path)), "<p>%s</p>" % plain(definitions.first_comment(file))]
        heads: List[antt.Piece] = []
        for made in sorted(file.definitions, key=lambda made: made.first):
            for depth, head in enumerate(made.headers):
                if heads[depth:depth + 1] != [head]:
                    out.append("<pre>%s</pre>" % book.code(file.lines, head.first, head.end, book.links[path], page, "--"))
            heads = made.headers
            text = book.code(file.lines, definitions.top_of(file, made.first), made.end, book.links[path], page, "--")
            out += ["<pre>%s</pre>" % text] + [book.used(book.entries[path, name], page) for name in made.names]
    title = "Definitions" if folder == "specs" else "Lemmas"
    return ["<h2>%s</h2>" % title, *out] if out else []


def crate_page(book: Book, crate: str) -> str:
    """The page of a crate."""
    page = crate + ".html"
    body = ["<p>%s</p>" % plain(told(book.project, crate)), *contracts(book, crate, page), *defined(book, crate, "specs", page), *types(book, crate, page), *defined(book, crate, "proofs", page)]
    return page_text(crate, body)


def kit_page(book: Book) -> str:
    """The page of the definitions of the kit that are cited."""
    words = definitions.kit_words(book.project) if (book.project.root / definitions.KIT_WORDS).exists() else {}
    body = ["<p>Definitions and lemmas of the kit that the others cite. Their text is in the kit.</p>"]
    for place in sorted({place for place, _ in book.kit}):
        body.append("<h2>%s</h2>" % html.escape(place))
        for at in sorted(at for at in book.kit if at[0] == place):
            entry = book.kit[at]
            body += ['<p id="%s"><code>%s</code> %s</p>' % (html.escape(entry.anchor), html.escape(entry.name), html.escape(words.get(at, ""))), book.used(entry, "kit.html")]
    return page_text("The kit", body)


def contract(book: Book, what: str) -> List[str]:
    """The contract of a function, on the first page."""
    path, _, name = what.rpartition(":")
    part = function_part(book, path, book.project.source(path).function(name), "index.html")
    return [line.replace(' id="fn/', ' data-of="fn/') for line in part]


def index_page(book: Book) -> str:
    """The page from which all others are reached."""
    body = ["<p>The contracts, definitions and lemmas of all crates. Each word leads to its definition, and each definition says where it is used.</p>"]
    for title, what in FIRST:
        if (book.project.root / what.rpartition(":")[0]).exists():
            body += ["<h2>%s</h2>" % title, *contract(book, what)]
    body += ["<h2>Crates</h2>"]
    sections = crates_table.sections_of(book.project.read("crates.txt"))
    for section in sections:
        body += ["<h3>%s</h3>" % html.escape(section.name), "<p>%s</p>" % html.escape(section.what), "<ul>"]
        body += ['<li><a href="%s.html">%s</a> %s</li>' % (crate, crate, plain(told(book.project, crate))) for crate in section.crates]
        body.append("</ul>")
    body.append('<p><a href="kit.html">The kit</a>: the definitions of the kit that are cited.</p>')
    return page_text("pyc", body)


def names_of(book: Book) -> str:
    """The script of the search, with all names."""
    entries = sorted({*book.entries.values(), *book.functions.values(), *book.kit.values()})
    listed = [[one.name, "%s, %s" % (one.page[:-5], one.kind), link(one, "")] for one in entries]
    return "const NAMES = %s;\n%s" % (json.dumps(listed, ensure_ascii=False, separators=(",", ":")), SCRIPT.lstrip("\n"))


def write(project: antt.Project, folder: pathlib.Path) -> None:
    """Writes the book."""
    book = Book(project)
    folder.mkdir(parents=True, exist_ok=True)
    for crate in project.crates():
        (folder / (crate + ".html")).write_text(crate_page(book, crate), encoding="utf-8")
    (folder / "kit.html").write_text(kit_page(book), encoding="utf-8")
    (folder / "index.html").write_text(index_page(book), encoding="utf-8")
    (folder / "book.js").write_text(names_of(book), encoding="utf-8")


# ---- a look at what was written

class Anchors(html.parser.HTMLParser):
    """The anchors and the links of a page."""

    def __init__(self) -> None:
        super().__init__()
        self.ids: List[str] = []
        self.hrefs: List[str] = []

    def handle_starttag(self, tag: str, attrs: List[Tuple[str, Optional[str]]]) -> None:
        for name, value in attrs:
            if name == "id" and value:
                self.ids.append(value)
            elif name == "href" and value:
                self.hrefs.append(value)


def dangling(folder: pathlib.Path) -> List[str]:
    """The links of a book that lead nowhere, and the anchors that stand twice on a page."""
    pages: Dict[str, Anchors] = {}
    for path in sorted(folder.glob("*.html")):
        pages[path.name] = Anchors()
        pages[path.name].feed(path.read_text(encoding="utf-8"))
    ids = {name: set(page.ids) for name, page in pages.items()}
    wrong = []
    for name, page in pages.items():
        wrong += ["%s: %s stands %d times" % (name, one, many) for one, many in collections.Counter(page.ids).items() if many > 1]
        for href in page.hrefs:
            to, _, anchor = href.partition("#")
            if (to or name) not in ids or anchor and urllib.parse.unquote(anchor) not in ids[to or name]:
                wrong.append("%s: %s leads nowhere" % (name, href))
    script = (folder / "book.js").read_text(encoding="utf-8")
    for name, _, href in json.loads(script[len("const NAMES = "):script.index(";\n")]):
        to, _, anchor = href.partition("#")
        if to not in ids or urllib.parse.unquote(anchor) not in ids[to]:
            wrong.append("book.js: %s leads nowhere" % href)
    return wrong


def main() -> int:
    parser = argparse.ArgumentParser(prog="book.py", description=(__doc__ or "").split("\n")[0])
    parser.add_argument("--to", type=pathlib.Path, required=True, metavar="FOLDER", help="where the pages are written")
    parser.add_argument("--root", type=pathlib.Path, default=ROOT, help="the top of the repository (this one)")
    words = parser.parse_args()
    write(antt.Project(words.root), words.to)
    wrong = dangling(words.to)
    for line in wrong:
        print("book.py: " + line, file=sys.stderr)
    return 1 if wrong else 0


if __name__ == "__main__":
    sys.exit(main())
