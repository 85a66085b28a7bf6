"""Definitions as they stand in the crates' files: specs/*.antt, and the types of Rust (src/*.rt) that they name.

A file's definitions are its records, datas and abbreviations, each with the comment above it. What a name means in a file is found by
the file's `use` lines; `Rattle.CRATE.specs.declared.FILE.TYPE` is a type of the crate's src/FILE.rt. Names of the kit's library mean
nothing here.
"""
import functools
import os
import re

ROOT = os.path.dirname(os.path.dirname(os.path.dirname(os.path.abspath(__file__))))
HEAD = re.compile(r"(?:abbrev pub|abbrev|unfoldable pub|unfoldable|pub record|record|pub data|data|pub enum|pub struct|pub const) ([^\s:<{(]+)")
RUST_HEAD = re.compile(r"pub (?:enum|struct|const) (\w+)")


class Definition:
    """A name, its file (from the repository's root), the number of its first line, its comment, its text, and the names of its own."""

    def __init__(self, name, path, line, comment, text):
        self.name, self.path, self.line, self.comment, self.text = name, path, line, comment, text
        self.is_rust = path.endswith(".rt")
        self.makers = makers(text, self.is_rust)

    def __repr__(self):
        return f"{self.path}:{self.name}"


def makers(text, is_rust):
    """The constructors of a data, or the variants of an enum."""
    if text[0].startswith(("pub data", "data")):
        return re.findall(r"^  (?:pub )?(\w+) :", "\n".join(text), re.M)
    if is_rust and text[0].startswith("pub enum"):
        return re.findall(r"^    (\w+)[ ,({]", "\n".join(text), re.M)
    return []


class File:
    """The definitions of a file by name, and what its `use` lines bring: a name to (module, name there), an alias to a module."""

    def __init__(self, path):
        self.path = path
        with open(os.path.join(ROOT, path), encoding="utf-8") as file:
            self.lines = file.read().split("\n")
        self.definitions, self.imports, self.aliases = {}, {}, {}
        if path.endswith(".antt"):
            self.read_uses()
        self.read_definitions()

    def read_uses(self):
        for line in self.lines:
            if found := re.match(r"(?:pub )?use (\S+)\.\{(.*)\}", line):
                for word in found[2].split(","):
                    name, _, other = word.strip().partition(" as ")
                    self.imports[other or name] = (found[1], name)
            elif found := re.match(r"(?:pub )?use (\S+) as (\w+)", line):
                self.aliases[found[2]] = found[1]

    def read_definitions(self):
        head = RUST_HEAD if self.path.endswith(".rt") else HEAD
        for at, line in enumerate(self.lines):
            if found := head.match(line.removeprefix("  ") if self.path.endswith(".antt") else line):
                self.definitions[found[1]] = self.definition(found[1], at)

    def definition(self, name, at):
        first = at
        while first > 0 and self.is_above(self.lines[first - 1]):
            first -= 1
        last = at + 1
        while last < len(self.lines) and self.goes_on(self.lines[last]):
            last += 1
        comment = [line for line in self.lines[first:at] if not line.startswith("#[")]
        return Definition(name, self.path, at + 1, comment, self.lines[at:last])

    def is_above(self, line):
        """Whether a line belongs to the comment above a definition."""
        if self.path.endswith(".rt"):
            return line.startswith(("///", "#["))
        return line.strip().startswith("-- ") and not line.startswith("-- ----")

    def goes_on(self, line):
        """Whether a line belongs to a definition that began above it."""
        if self.path.endswith(".rt"):
            return bool(line) and not line.startswith(("///", "#[", "pub ", "impl", "use"))
        head = line.removeprefix("  ")
        return bool(line.strip()) and not HEAD.match(head) and not line.strip().startswith("-- ") or line.startswith("  -- ")


@functools.lru_cache(maxsize=None)
def file_of(path):
    return File(path) if os.path.exists(os.path.join(ROOT, path)) else None


def place_of(module):
    """The path of the file that a module stands in, and the type in it, where the module is a type of Rust."""
    parts = module.split(".")
    if parts[0] != "Rattle" or len(parts) < 3 or not os.path.isdir(os.path.join(ROOT, "crates", parts[1])):
        return None, None
    folder = f"crates/{parts[1]}"
    if parts[2] != "specs" or len(parts) == 3:
        return None, None
    if parts[3] == "declared":
        kept = [part for part in parts[4:] if part not in ("TheVariants", "TheConstants")]
        if parts[-1] == "TheConstants":
            return f"{folder}/src/{'/'.join(kept)}.rt", None
        return f"{folder}/src/{'/'.join(kept[:-1])}.rt", kept[-1]
    path = f"{folder}/specs/{'/'.join(parts[3:])}.antt"
    if os.path.exists(os.path.join(ROOT, path)):
        return path, None
    lib = file_of(f"{folder}/specs/Lib.antt")
    if lib and parts[3] in lib.aliases:
        return place_of(".".join([lib.aliases[parts[3]], *parts[4:]]))
    return None, None


def find(module, name):
    """The definition that a module has by this name, which may be a constructor's."""
    path, owner = place_of(module)
    file = path and file_of(path)
    if not file:
        return None
    if owner:
        return file.definitions.get(owner)
    return named_in(file, name)


def named_in(file, name):
    """What a name means in a file."""
    if name in file.definitions:
        return file.definitions[name]
    for definition in file.definitions.values():
        if name in definition.makers and not definition.is_rust:
            return definition
    return find(*file.imports[name]) if name in file.imports else None
