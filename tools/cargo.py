#!/usr/bin/env python3
"""Writes the crates as an ordinary Cargo workspace, whose sources are those of this repository without their contracts.

usage: cargo.py --to FOLDER [--clauses] [--offline | --registry FOLDER] [--plain] [CRATE..]

  --to FOLDER        where the workspace is written: a folder that is not there, is empty, or was written by this tool.
                     A file is touched only where it changes, and what lies in FOLDER/target stays
  --clauses          keep the contracts as comments
  --offline          take small stand-ins for serde_json, itoa, hex and thiserror, so that cargo needs no registry
  --registry FOLDER  take these from a folder of crates that stands for crates.io, as Debian's /usr/share/cargo/registry
  --plain            leave the layout as it is, where rustfmt would be called
  CRATE..            the crates that are wanted, with those below them; without one the program, pyc

What is proved is the Rattle source. The workspace is the same text without the proofs, so whatever is built of it is tested
and not proved; its README says so first. `#[cfg(test)]` modules are left out.

Status: 0 written; 1 where a source has a construct that this tool does not know, with its file and row; 2 wrong words.
"""
from __future__ import annotations

import argparse
import pathlib
import re
import shutil
import subprocess
import sys
import tempfile
from typing import Dict, FrozenSet, List, NamedTuple, Optional, Sequence, Set

TOOLS = pathlib.Path(__file__).resolve().parent
sys.path.insert(0, str(TOOLS))

import build  # noqa: E402
from rattle import rust  # noqa: E402
from rattle.tokens import Unknown  # noqa: E402

ROOT = TOOLS.parent
PARTS = TOOLS / "cargo"

NOTE = "What is proved is the Rattle source of this workspace (`.rt`); this workspace, and all that is built of it, is tested and not proved."

# The libraries of the ecosystem that the crates use, and the folders of their adapters. Those that have no folder are
# taken as they are, at this version.
ADAPTERS = ("bitflags", "hex", "indexmap", "itoa", "serde_json")
PLAIN_LIBRARIES = {"thiserror": "1"}

# Forms that a proof wants, or that Rust would write otherwise, in sources that are not changed for it.
ALLOWED_LINTS = (
    "collapsible_if",
    "enum_variant_names",
    "explicit_counter_loop",
    "iter_skip_next",
    "large_enum_variant",
    "len_without_is_empty",
    "manual_map",
    "manual_unwrap_or",
    "match_like_matches_macro",
    "needless_as_bytes",
    "needless_range_loop",
    "question_mark",
    "redundant_closure",
    "redundant_pattern_matching",
    "result_large_err",
    "should_implement_trait",
    "single_match",
    "type_complexity",
)

# What the program has beside its source: serde_json's parser answers no refusal, so it is given a reserve.
ALLOCATOR = """
#[global_allocator]
static ALLOCATOR: rshim::reserve::Reserving = rshim::reserve::Reserving::over(std::alloc::System);
"""

# What the crate on top has where the libraries are there.
SERDE = """
[dev-dependencies]
serde_json = "1"

[dependencies.serde]
version = "1"
default-features = false
features = ["std"]
optional = true

[features]
# Codes and findings in the formats of serde.
serde = ["dep:serde"]
"""

WITH_SERDE = (
    "With the feature `serde`, which is off by default, a `Code` is written as the bytes of its file and verified where it is "
    "read, and a `Finding` is written as a record."
)
WITHOUT_SERDE = "Without `--offline` there is a feature `serde`, which is off by default."

SERIALIZED = """
#[cfg(feature = "serde")]
mod serialized;
"""

FORMAT = """edition = "2024"
style_edition = "2024"
max_width = 100
"""


class Wanted(NamedTuple):
    """What is written, as the words say."""

    clauses: bool = False
    offline: bool = False
    registry: Optional[pathlib.Path] = None
    plain: bool = False


class Crate(NamedTuple):
    """A crate of this repository: what crates.txt says that it uses, and its root."""

    name: str
    uses: Sequence[str]
    root: pathlib.Path

    @property
    def is_program(self) -> bool:
        """Whether it has a `main`."""
        return self.root.name == "main.rt"


class NotWritten(Exception):
    """Why there is no workspace."""


def read_uses(text: str) -> Dict[str, List[str]]:
    """For each crate of crates.txt all names behind its colon."""
    found: Dict[str, List[str]] = {}
    for line in text.splitlines():
        name, colon, uses = line.partition("#")[0].partition(":")
        if colon:
            found[name.strip()] = uses.split()
    return found


def crates_below(root: pathlib.Path, names: Sequence[str]) -> List[Crate]:
    """These crates and those below them, lower ones first. Raises NotWritten for a name that is none, or is a library for C."""
    uses = read_uses((root / "crates.txt").read_text(encoding="utf-8"))
    own = {name: [it for it in used if it in uses] for name, used in uses.items()}
    found: Dict[str, Crate] = {}
    for wanted in names:
        if wanted not in uses:
            is_other = any(name.split()[0] == wanted for name in uses)
            raise NotWritten(f"{wanted} is a library for C" if is_other else f"there is no crate {wanted}")
        for name in build.below(wanted, own):
            roots = [root / "crates" / name / "src" / file for file in ("lib.rt", "main.rt")]
            found.setdefault(name, Crate(name, uses[name], next(it for it in roots if it.exists())))
    return list(found.values())


def macros_of(root: pathlib.Path, crates: Sequence[Crate]) -> FrozenSet[str]:
    """The macros that these crates declare."""
    found: Set[str] = set()
    for crate in crates:
        for file in sorted(crate.root.parent.rglob("*.rt")):
            found.update(rust.macro_names(str(file.relative_to(root)), file.read_text(encoding="utf-8")))
    return frozenset(found)


def module_file(folder: pathlib.Path, name: str) -> pathlib.Path:
    """The file of a module that a file in this folder names."""
    beside = folder / (name + ".rt")
    return beside if beside.exists() else folder / name / "mod.rt"


def sources_of(root: pathlib.Path, crate: Crate, options: rust.Options) -> Dict[str, str]:
    """The sources of a crate in Rust, by their names in src/: those that its root reaches by `mod`. Raises Unknown."""
    found: Dict[str, str] = {}
    waiting = [(crate.root, crate.root.parent)]
    while waiting:
        file, folder = waiting.pop()
        is_root = file == crate.root
        given = options if is_root else options._replace(head="")
        made = rust.rust_of(str(file.relative_to(root)), file.read_text(encoding="utf-8"), given)
        found[str(file.relative_to(crate.root.parent).with_suffix(".rs"))] = made.text
        for name in made.modules:
            inner = module_file(folder, name)
            waiting.append((inner, folder / name))
    return found


class Workspace:
    """The files of a workspace, by their names in its folder."""

    def __init__(self, root: pathlib.Path, crates: Sequence[Crate], wanted: Wanted) -> None:
        self.root = root
        self.crates = crates
        self.wanted = wanted
        self.files: Dict[str, str] = {}
        self.members: List[str] = []
        self.lines = 0

    def write(self) -> None:
        """Fills the files. Raises Unknown."""
        macros = macros_of(self.root, self.crates)
        for crate in self.crates:
            head = "".join("//! %s\n" % line for line in (NOTE,)) + "//!\n"
            options = rust.Options(macros, self.wanted.clauses, head)
            if crate.name != "pyc":
                self._crate(crate, sources_of(self.root, crate, options))
            else:
                self._top(sources_of(self.root, crate, options))
        self._libraries()
        self.files["Cargo.toml"] = self._manifest()
        self.files["rustfmt.toml"] = FORMAT
        self.files[".gitignore"] = "target/\n"
        self.files["README.md"] = self._readme()
        if self.wanted.registry is not None:
            self.files[".cargo/config.toml"] = config_of(self.wanted.registry)

    def _crate(self, crate: Crate, sources: Dict[str, str]) -> None:
        folder = "crates/" + crate.name
        extra = PARTS / "extra" / (crate.name + ".rs")
        if extra.exists():
            sources["conversions.rs"] = extra.read_text(encoding="utf-8")
            sources["lib.rs"] += "\nmod conversions;\n" + exported(sources["conversions.rs"])
        for name, text in sources.items():
            guard = "#![forbid(unsafe_code)]\n" if name in ("lib.rs", "main.rs") else ""
            self.files[f"{folder}/src/{name}"] = behind_docs(text, guard)
            self.lines += text.count("\n")
        self.files[folder + "/Cargo.toml"] = self._crate_manifest(crate, "".join(sources.values()))
        self.members.append(folder)

    def _crate_manifest(self, crate: Crate, text: str) -> str:
        lines = [f'rshim = {{ path = "../../libraries/rshim" }}'] if "rshim::" in text else []
        own = {it.name for it in self.crates}
        for name in crate.uses:
            if name in own:
                lines.append(f'{name} = {{ path = "../{name}" }}')
            elif re.search(rf"\b{name}::", text):
                lines.append(self._library(name, "../.."))
        return manifest_of(crate.name, about(crate), lines)

    def _library(self, name: str, up: str) -> str:
        if name in PLAIN_LIBRARIES and not self.wanted.offline:
            return f'{name} = "{PLAIN_LIBRARIES[name]}"'
        if name in ADAPTERS or name in PLAIN_LIBRARIES:
            return f'{name} = {{ package = "rshim_{name}", path = "{up}/libraries/{name}" }}'
        raise NotWritten(f"there is no adapter for the library {name}")

    def _libraries(self) -> None:
        """The adapters: what lies in the folder of each, and over it what is there of the libraries or in their place."""
        for folder in sorted(it for it in PARTS.iterdir() if it.is_dir() and it.name not in ("pyc", "extra")):
            if folder.name in PLAIN_LIBRARIES and not self.wanted.offline:
                continue
            self._parts(folder, "libraries/" + folder.name)
            self.members.append("libraries/" + folder.name)

    def _parts(self, folder: pathlib.Path, name: str) -> None:
        """The files of a folder, and over them those that are for the libraries or for what stands in their place."""
        for part in (folder, folder / ("offline" if self.wanted.offline else "real")):
            for file in sorted(part.rglob("*")):
                inner = file.relative_to(part)
                if file.is_file() and inner.parts[0] in ("src", "tests", "Cargo.toml"):
                    self.files[f"{name}/{inner}"] = file.read_text(encoding="utf-8")

    def _top(self, program: Dict[str, str]) -> None:
        """The crate on top, whose program is that of this repository."""
        self._parts(PARTS / "pyc", "pyc")
        if not self.wanted.offline:
            self.files["pyc/Cargo.toml"] += SERDE
            self.files["pyc/src/lib.rs"] += SERIALIZED
        program["main.rs"] += ALLOCATOR
        for name, text in program.items():
            self.files["pyc/src/" + name] = behind_docs(text, "#![forbid(unsafe_code)]\n")
            self.lines += text.count("\n")
        self.members.append("pyc")

    def _manifest(self) -> str:
        members = "".join(f'    "{it}",\n' for it in sorted(self.members))
        lints = "".join(f'{it} = "allow"\n' for it in ALLOWED_LINTS)
        return (
            f"# {NOTE}\n\n[workspace]\nresolver = \"3\"\nmembers = [\n{members}]\n\n"
            '[workspace.package]\nversion = "0.1.0"\nedition = "2024"\nrust-version = "1.87"\nlicense = "MIT"\n\n'
            '[workspace.lints.rust]\nunsafe_code = "forbid"\n\n'
            f"# Forms of the sources of crates/, which are written for their proofs.\n[workspace.lints.clippy]\n{lints}\n"
            "[profile.release]\nopt-level = 3\n"
        )

    def _readme(self) -> str:
        readme = (PARTS / "README.md").read_text(encoding="utf-8")
        libraries = "stand-ins of its own" if self.wanted.offline else "the libraries of the ecosystem"
        serde = WITHOUT_SERDE if self.wanted.offline else WITH_SERDE
        for word, text in ("COMMIT", commit_of(self.root)), ("LIBRARIES", libraries), ("SERDE", serde):
            readme = readme.replace(word, text)
        return NOTE + "\n\n" + readme


def manifest_of(name: str, description: str, dependencies: Sequence[str]) -> str:
    """The Cargo.toml of a crate of this repository."""
    lines = "".join(it + "\n" for it in dependencies)
    described = description.replace("\\", "\\\\").replace('"', '\\"')
    return (
        f'[package]\nname = "{name}"\ndescription = "{described}"\nversion.workspace = true\nedition.workspace = true\n'
        f"rust-version.workspace = true\nlicense.workspace = true\npublish = false\n\n[dependencies]\n{lines}\n[lints]\nworkspace = true\n"
    )


def about(crate: Crate) -> str:
    """The first sentence of the docs of a crate."""
    lines = []
    for line in crate.root.read_text(encoding="utf-8").splitlines():
        if not line.startswith("//!") or not line[3:].strip():
            break
        lines.append(line[3:].strip())
    return " ".join(lines).partition(". ")[0].rstrip(".") + "."


def behind_docs(text: str, line: str) -> str:
    """The text with a line behind the docs that it begins with."""
    lines = text.splitlines(True)
    at = next((at for at, it in enumerate(lines) if not it.startswith("//!")), len(lines))
    return "".join(lines[:at]) + line + "".join(lines[at:])


def exported(text: str) -> str:
    """The line that shows the public types of a module."""
    names = re.findall(r"^pub (?:struct|enum) (\w+)", text, re.MULTILINE)
    return f"pub use conversions::{{{', '.join(names)}}};\n" if names else ""


def config_of(registry: pathlib.Path) -> str:
    """The configuration by which cargo takes a folder in the place of crates.io."""
    return (
        '[source.crates-io]\nreplace-with = "folder"\n\n'
        f'[source.folder]\ndirectory = "{registry}"\n\n[net]\noffline = true\n'
    )


def commit_of(root: pathlib.Path) -> str:
    """The commit of the checkout."""
    said = subprocess.run(["git", "-C", str(root), "rev-parse", "--short", "HEAD"], stdout=subprocess.PIPE, stderr=subprocess.DEVNULL, universal_newlines=True, check=False)
    return said.stdout.strip() or "no commit"


def formatted(files: Dict[str, str]) -> Dict[str, str]:
    """The files as rustfmt lays them out, where it is there."""
    if shutil.which("rustfmt") is None:
        return files
    with tempfile.TemporaryDirectory() as folder:
        top = pathlib.Path(folder)
        for name, text in files.items():
            (top / name).parent.mkdir(parents=True, exist_ok=True)
            (top / name).write_text(text, encoding="utf-8")
        sources = [name for name in files if name.endswith(".rs")]
        roots = [name for name in sources if pathlib.Path(name).name in ("lib.rs", "main.rs") or "/tests/" in name]
        said = subprocess.run(["rustfmt", "--edition", "2024", *roots], cwd=folder, stderr=subprocess.PIPE, universal_newlines=True, check=False)
        if said.returncode:
            raise NotWritten("rustfmt: " + said.stderr.strip())
        return {name: (top / name).read_text(encoding="utf-8") for name in files}


def check_folder(folder: pathlib.Path) -> None:
    """Raises NotWritten where the folder holds what this tool did not write."""
    if not folder.exists():
        return
    if not folder.is_dir():
        raise NotWritten(f"{folder} is no folder")
    readme = folder / "README.md"
    is_ours = readme.is_file() and readme.read_text(encoding="utf-8", errors="replace").startswith(NOTE)
    if not is_ours and any(folder.iterdir()):
        raise NotWritten(f"{folder} holds files that this tool did not write")


def put(folder: pathlib.Path, files: Dict[str, str]) -> int:
    """Makes the folder hold these files, and gives how many had to be written. Others of its crates are taken out."""
    written = 0
    for name in sorted(files, key=lambda it: it != "README.md"):
        file = folder / name
        if not file.is_file() or file.read_bytes() != files[name].encode("utf-8"):
            file.parent.mkdir(parents=True, exist_ok=True)
            file.write_bytes(files[name].encode("utf-8"))
            written += 1
    for part in ("crates", "libraries", "pyc", ".cargo"):
        for file in sorted((folder / part).rglob("*"), reverse=True):
            if file.is_file() and str(file.relative_to(folder)) not in files:
                file.unlink()
            elif file.is_dir() and not any(file.iterdir()):
                file.rmdir()
    return written


def workspace(names: Sequence[str], wanted: Wanted, root: pathlib.Path = ROOT) -> Workspace:
    """The workspace of these crates, in memory. Raises Unknown and NotWritten."""
    made = Workspace(root, crates_below(root, names), wanted)
    made.write()
    if not wanted.plain:
        made.files = formatted(made.files)
    return made


def main(words: Sequence[str]) -> int:
    """Writes what the words ask for, and answers the status."""
    parser = argparse.ArgumentParser(description=__doc__, formatter_class=argparse.RawDescriptionHelpFormatter, usage=argparse.SUPPRESS)
    parser.add_argument("--to", type=pathlib.Path, required=True, metavar="FOLDER")
    parser.add_argument("--clauses", action="store_true")
    either = parser.add_mutually_exclusive_group()
    either.add_argument("--offline", action="store_true")
    either.add_argument("--registry", type=pathlib.Path, metavar="FOLDER")
    parser.add_argument("--plain", action="store_true")
    parser.add_argument("crates", nargs="*", metavar="CRATE")
    given = parser.parse_args(words)
    try:
        check_folder(given.to)
        made = workspace(given.crates or ["pyc"], Wanted(given.clauses, given.offline, given.registry, given.plain))
    except (Unknown, NotWritten) as fault:
        print(f"cargo.py: {fault}", file=sys.stderr)
        return 1
    put(given.to, made.files)
    others = len(made.members) - len(made.crates)
    print(f"wrote {len(made.crates)} crates, {made.lines} lines, and {others} of std and libraries, to {given.to}")
    print(NOTE)
    return 0


if __name__ == "__main__":
    sys.exit(main(sys.argv[1:]))
