#!/usr/bin/env python3
"""Spells the repository's own definitions and lemmas as Rattle does: words in snake case, and a dash only between two names.

usage: tools/respell.py [--list]      at the top of the repository; with --list it prints the new names and changes nothing

A definition, a field or a lemma in snake case; in a lemma's name a dash stays where each part that it joins is the name of
a function. Names of code, strings and what the check makes of a function keep their spelling. Comments and documents are
changed within backticks alone.
"""

import collections
import glob
import os
import re
import sys

TOKEN = re.compile(r"[^\s(){}\[\],;.\"`:]+")
HEAD = re.compile(r"^(\s*)((?:(?:abbrev|unfoldable|pub|record|data|opaque|ruleset)\s+)*)([^\s(){}\[\],;.:\"]+)((?:\s+[({].*)?)\s*:(?=\s|$)", re.M)
OPENED = re.compile(r"^((?:(?:abbrev|unfoldable|pub|record|data|opaque|ruleset)\s+)*)([^\s(){}\[\],;.:\"]+)\s*[({]", re.M)

# functions of the library that names of lemmas speak of
LIBRARY = set("""length take drop append map filter sum replicate set get_or concat reverse zip split div mod mul add sub
pow and or shr shl xor bit_and bit_or cond""".split())

# where the rule alone would make two names one, or hide a name of the code
CHOSEN = {
    "after-choice": "after_choice_lem",
    "all-rows": "all_rows_lem",
    "all-taken": "all_taken_lem",
    "bit-and": "bit-bit_and",
    "bit-or": "bit-bit_or",
    "block-of": "block_of_lem",
    "constant-letter": "constant_letter_lem",
    "counted-pairs": "counted_pairs_lem",
    "digits-within": "digits_within_lem",
    "has-rows": "has_rows_lem",
    "high-first": "high_first_lem",
    "is_up": "is_up_here",
    "least-among": "least_among_lem",
    "page-written": "page_written_lem",
    "selections-reaching": "selections_reaching_lem",
    "substitution-line": "substitution_line_lem",
    "values-of-six": "of_key_six",
    "variable-letter": "variable_letter_lem",
}

# parts of names that the library spells otherwise now
PARTS = {"getD": "get_or", "bitAnd": "bit_and", "bitOr": "bit_or"}


def uncommented(text):
    return "\n".join(re.sub(r"(^|\s)--(\s.*|$)", "", line) for line in text.split("\n"))


def proof_files():
    return sorted(f for f in glob.glob("crates/*/*/**/*.antt", recursive=True) if "/out/" not in f)


def snake(word):
    return re.sub(r"(?<=[a-z0-9])([A-Z])", lambda m: "_" + m.group(1).lower(), word)


def own_names():
    """Each name that a file of specs/ or proofs/ declares, with the kinds of places: 'top', 'field' or 'type'."""
    found = collections.defaultdict(set)
    for path in proof_files():
        if path.endswith("/Proof.antt"):
            continue
        text = uncommented(open(path, encoding="utf-8").read())
        spec = "/specs/" in path
        block = None
        for line in text.split("\n"):
            head = HEAD.match(line) or None
            if line[:1].strip():
                words = line.split()
                block = "record" if "record" in words[:3] else "data" if "data" in words[:3] else None
            if not head:
                continue
            indent, keys, name = head.group(1), head.group(2).split(), head.group(3)
            if "record" in keys or "data" in keys:
                kind = "type"
            elif indent and block:
                kind = "field"
            elif indent:
                kind = "local"
            else:
                kind = "spec" if spec else "lemma"
            found[name].add(kind)
        for m in OPENED.finditer(text):
            keys, name = m.group(1).split(), m.group(2)
            if name not in found and not ("record" in keys or "data" in keys):
                found[name].add("spec" if spec else "lemma")
    return found


def spelled(name, kinds, functions):
    if name in CHOSEN:
        return CHOSEN[name]
    parts = [PARTS.get(p, snake(p)) for p in name.split("-")]
    plain = "_".join(parts)
    if "lemma" not in kinds or kinds & {"field", "spec"}:
        return plain
    # the longest way to cut it into names of functions
    best = [None] * (len(parts) + 1)
    best[0] = []
    for end in range(1, len(parts) + 1):
        for start in range(end):
            word = "_".join(parts[start:end])
            if best[start] is not None and word in functions:
                if best[end] is None or len(best[start]) + 1 < len(best[end]):
                    best[end] = best[start] + [word]
    return "-".join(best[-1]) if best[-1] and len(best[-1]) > 1 else plain


def is_old(name):
    if not re.match(r"^[a-z≺≼]", name):
        return False
    return "-" in name.rstrip("-") or re.search(r"[a-z0-9][A-Z]", name) is not None


def plan():
    found = own_names()
    functions = set(LIBRARY)
    for name, kinds in found.items():
        if "spec" in kinds and re.match(r"^[a-z]", name):
            functions.add("_".join(PARTS.get(p, snake(p)) for p in name.split("-")))
    new = dict(CHOSEN)
    for name, kinds in found.items():
        if is_old(name) or name in CHOSEN:
            to = spelled(name, kinds, functions)
            if to != name:
                new[name] = to
    for name in bound_names(found):
        new.setdefault(name, name.replace("-", "_"))
    return new, found


def bound_names(found):
    """Names with a dash that a lemma binds and no file declares."""
    names = set()
    for path in proof_files():
        if path.endswith("/Proof.antt"):
            continue
        text = uncommented(open(path, encoding="utf-8").read())
        theirs = borrowed(text)
        for m in TOKEN.finditer(text):
            name = m.group(0)
            if re.fullmatch(r"[A-Za-z]\w*'?(-[a-z]\w*)+'?", name) and name not in found and name not in theirs:
                if not text[: m.start()].endswith(".") and not name[0].isupper() or len(name.split("-")[0]) == 1:
                    names.add(name)
    return names


def borrowed(text):
    """The names that a file imports from the library, which keep the library's spelling there."""
    crates = {os.path.basename(c) for c in glob.glob("crates/*")}
    names = set()
    for module, items in re.findall(r"\buse\s+([^\s{;]+)\.\{([^}]*)\}", text):
        parts = module.split(".")
        if not (parts[0] == "Rattle" and len(parts) > 1 and parts[1] in crates):
            names |= {word for item in items.split(",") for word in item.split()}
    return names


def turned_proof(text, new, walk, fields):
    """A file of specs/ or proofs/; in a function's own proof the steps and goals keep the names that the check gives them."""
    theirs = borrowed(text)
    new = {old: to for old, to in new.items() if old not in theirs}
    lines = []
    goals = {m.group(2) for m in OPENED.finditer(text)} | {m.group(3) for m in HEAD.finditer(text)} if walk else set()

    def word(t):
        name = t.group(0)
        after_dot = t.string[: t.start()].endswith(".") and not re.search(r"Rattle\.[\w.]*$", t.string[: t.start()])
        if walk and (name in goals or after_dot and name not in fields):
            return name
        return new.get(name, name)

    for line in text.split("\n"):
        m = re.search(r"(^|\s)--(\s|$)", line)
        code, comment = (line[: m.start(2)], line[m.start(2):]) if m else (line, "")
        code = TOKEN.sub(word, code)
        lines.append(code + in_ticks(comment, new))
    return "\n".join(lines)


def in_ticks(text, new):
    return re.sub(r"`[^`\n]*`", lambda s: TOKEN.sub(lambda t: new.get(t.group(0), t.group(0)), s.group(0)), text)


def turned_code(text, new):
    """A file of code: names with a dash or a capital inside stand in clauses and ghost imports alone."""
    theirs = borrowed(text)
    new = {old: to for old, to in new.items() if old not in theirs}
    lines = []
    for line in text.split("\n"):
        m = re.search(r"(?<!\S)//", line)
        code, comment = (line[: m.start()], line[m.start():]) if m else (line, "")
        pieces = re.split(r'("(?:[^"\\]|\\.)*")', code)
        code = "".join(p if p.startswith('"') else TOKEN.sub(lambda t: new.get(t.group(0), t.group(0)), p) for p in pieces)
        lines.append(code + in_ticks(comment, new))
    return "\n".join(lines)


def clashes(new, found):
    """New names that stand somewhere already, or that two names would share."""
    said = []
    seen = collections.defaultdict(set)
    for old, to in new.items():
        seen[to].add(old)
    for to, olds in sorted(seen.items()):
        if len(olds) > 1:
            said.append(f"two names become one: {sorted(olds)} -> {to}")
    words = {}
    for path in proof_files():
        words[path] = set(TOKEN.findall(uncommented(open(path, encoding="utf-8").read())))
    for path in sorted(glob.glob("crates/*/src/**/*.rt", recursive=True)):
        words[path] = set(re.findall(r"[^\W]+", re.sub(r"//.*", "", open(path, encoding="utf-8").read())))
    for old, to in sorted(new.items()):
        where = [p for p, w in words.items() if to in w]
        both = [p for p in where if p.endswith(".rt") and old in open(p, encoding="utf-8").read()
                or p.endswith(".antt") and old in words[p]]
        if both:
            said.append(f"{old} -> {to} stands already in {both[:4]} beside it")
        elif [p for p in where if p.endswith(".antt")]:
            said.append(f"note: {old} -> {to} stands in {[p for p in where if p.endswith('.antt')][:3]}")
    return said


def main(argv):
    os.chdir(os.path.join(os.path.dirname(os.path.abspath(__file__)), ".."))
    new, found = plan()
    if "--list" in argv:
        for old, to in sorted(new.items()):
            print(f"{old}\t{to}\t{','.join(sorted(found[old]))}")
        for line in clashes(new, found):
            print("#", line)
        return 0
    fields = {name for name, kinds in found.items() if "field" in kinds}
    for path in proof_files():
        text = open(path, encoding="utf-8").read()
        walk = path.endswith("/Proof.antt")
        open(path, "w", encoding="utf-8").write(turned_proof(text, new, walk, fields))
    for path in sorted(glob.glob("crates/*/src/**/*.rt", recursive=True) + glob.glob("crates/*/must-fail/*.edit")):
        text = open(path, encoding="utf-8").read()
        open(path, "w", encoding="utf-8").write(turned_code(text, new))
    for path in sorted(glob.glob("*.md") + glob.glob("docs/*.md")):
        text = open(path, encoding="utf-8").read()
        open(path, "w", encoding="utf-8").write(in_ticks(text, new))
    return 0


if __name__ == "__main__":
    raise SystemExit(main(sys.argv[1:]))
