#!/usr/bin/env python3
"""What each promise unfolds to: the definitions that its own names, and those that these name, file by file. The lists are
put between two marks of docs/PROMISES.md; tests/docs fails where others stand there.

A name is looked up in its file and then in the file's `use` lines. Names of the kit's library end the search. A
constructor or a field stands with its type and is not listed; the types of both are followed. A variable that is called
like a definition its file knows counts as that definition, so that nothing is left out.
"""
import re
import textwrap
from functools import cache
from pathlib import Path

ROOT = Path(__file__).resolve().parent.parent
CRATES = ROOT / "crates"
DOCUMENT = ROOT / "docs" / "PROMISES.md"
BEGIN, END = "<!-- tools/unfolds.py: begin -->\n\n", "<!-- tools/unfolds.py: end -->"
PROMISES = {
    "ReadPromise": "block/specs/Read.antt",
    "RowsPromise": "solver/specs/Rows.antt",
    "PagePromise": "solver/specs/Page.antt",
    "PageExistence": "solver/specs/Existence.antt",
    "ValuesPromise": "solver/specs/Values.antt",
    "CountPromise": "solver/specs/Count.antt",
    "WritePromise": "writing/specs/Write.antt",
    "Tallies": "tally/specs/Counts.antt",
    "LibraryText": "lines/specs/Library.antt",
}
TOKEN = re.compile(r'"[^"]*"|[(){}\[\];,]|[^\s(){}\[\];,]+')
USE = re.compile(r"use (\S+?)(?:\.\{(.*)\}| as (\w+))")
PROJECT_PATH = re.compile(r"Rattle\.(\w+)\.specs\.(declared\.)?(.+)")
BEFORE_NAMES = ("pub", "abbrev", "unfoldable")


class Source:
    """A file: the words of each definition, the type of each constructor, and what its use lines bring."""

    def __init__(self):
        self.definitions, self.owners, self.brought, self.aliases = {}, {}, {}, {}

    def define(self, name, words):
        self.definitions.setdefault(name, []).extend(words)
        if re.fullmatch(r"◌[^◌]+◌", name):
            self.owners[name.strip("◌")] = name


def items(lines):
    """The lines in groups, each of which begins at the outermost indentation; a closing bracket begins none."""
    groups = []
    for line in lines:
        if line.startswith((" ", "]", "}", ")")) and groups:
            groups[-1].append(line)
        elif line.strip():
            groups.append([line])
    return groups


def body_of(group):
    """What stands after the `where` of a type or module, item by item."""
    return items(textwrap.dedent("\n".join(group).partition(" where\n")[2]).split("\n"))


def take_use(source, line):
    """A use line: which file each name comes from, or which type, where it is declared in the code."""
    path, names, alias = USE.fullmatch(line.strip()).groups()
    project = PROJECT_PATH.fullmatch(path)
    if not project or not (CRATES / project[1]).is_dir():
        return
    crate, declared, rest = project.groups()
    home = f"{crate}/specs/{rest}.antt"
    if declared:
        *modules, name = rest.removesuffix(".TheVariants").split(".")
        home = (crate, "/".join(modules), name)
    if alias:
        source.aliases[alias] = home
        return
    for named in names.split(","):
        words = named.split()
        source.brought[words[-1]] = (home, words[0])


def take_type(source, outer, words, group):
    """A data type with its constructors, or a record with its fields; a definition called like one of them counts where it is named."""
    kind, name, *rest = words
    members = {next(word for word in member[0].split() if word != "pub") for member in body_of(group)}
    source.define(name, outer + [word for word, after in zip(rest, rest[1:] + [""]) if word not in members or after != ":"])
    if kind == "data":
        source.owners.update((member, name) for member in members)


def take(source, groups, outer):
    """The definitions of some items; `outer` are the words of the modules around them."""
    current = None
    for group in groups:
        tokens = TOKEN.findall(" ".join(group))
        words = [token for token in tokens if token not in BEFORE_NAMES]
        if words[0] == "use":
            take_use(source, group[0])
        elif words[0] == "module":
            take(source, body_of(group), outer + words[2:words.index("where")])
        elif words[0] in ("data", "record"):
            take_type(source, outer, words, group)
        elif words[0] not in ("mod", "infix"):
            if words != tokens or words[1] == ":":
                current = words[0]
            source.define(current, outer + words)


@cache
def antt(path):
    """A file of definitions."""
    text = re.sub(r"(^|\s)--(\s.*)?$", "", (CRATES / path).read_text(), flags=re.M)
    source = Source()
    take(source, items(text.split("\n")), [])
    return source


@cache
def rattle(path):
    """A file of code: the types that it declares."""
    text = re.sub(r"//.*", "", (CRATES / path).read_text())
    source = Source()
    for crate, rest in re.findall(r"^use (\w+)::([^;]+);", text, re.M):
        path, _, several = rest.partition("{")
        *modules, name = path.split("::")
        for name in re.findall(r"\w+", several) or [name]:
            if (CRATES / crate).is_dir():
                source.brought[name] = ((crate, "/".join(modules), name), name)
    for name, body in re.findall(r"^(?:pub )?(?:struct|enum) (\w+) \{\n(.*?)^\}", text, re.M | re.S):
        source.define(name, re.findall(r"\w+", body))
    return source


def located(home, name):
    """The file and the definition that a name from elsewhere stands in."""
    if isinstance(home, str):
        return home, antt(home).owners.get(name, name)
    crate, modules, declared = home
    files = [f"{crate}/src/{file}.rt" for file in ([modules] if modules else ["lib", "main"])]
    return next(file for file in files if (CRATES / file).exists()), declared


def named(file, definition):
    """The definitions that a definition names, each by its file and name."""
    source = antt(file) if file.endswith(".antt") else rattle(file)
    words = source.definitions[definition]
    for before, word, after in zip([""] + words, words, words[1:] + [""]):
        if after == "=" and before in ("{", ";"):
            continue
        first, _, rest = word.partition(".")
        if rest and first in source.aliases:
            yield located(source.aliases[first], rest)
            continue
        if first in source.definitions or first in source.owners:
            yield file, source.owners.get(first, first)
        if first in source.brought:
            yield located(*source.brought[first])


def unfolded(file, promise):
    """All definitions that a promise names, directly or through others, without itself."""
    seen, left = set(), [(file, promise)]
    while left:
        one = left.pop()
        if one not in seen:
            seen.add(one)
            left.extend(named(*one))
    return seen - {(file, promise)}


def listed():
    """The list for each promise: each file, with those of its names that the promise unfolds to."""
    lines = []
    for promise, path in PROMISES.items():
        lines += [f"**{promise}** (`{path}`):", ""]
        names = {}
        for file, name in sorted(unfolded(path, promise)):
            names.setdefault(file, []).append(f"`{name}`")
        for file, those in names.items():
            line = f"- `{file}` has {', '.join(those)}"
            lines += textwrap.wrap(line, 118, subsequent_indent="  ", break_on_hyphens=False)
        lines.append("")
    return "\n".join(lines)


def parted():
    """The document up to the lists, the lists that stand there, and the rest."""
    before, _, rest = DOCUMENT.read_text().partition(BEGIN)
    stands, _, after = rest.partition(END)
    return before, stands, after


if __name__ == "__main__":
    before, _, after = parted()
    DOCUMENT.write_text(before + BEGIN + listed() + END + after)
