#!/usr/bin/env python3
"""Brings the repository's own definitions and lemmas to snake case, after port.py of the kit.

usage: python3 tools/respell.py [--list]      at the top of the repository; --list prints the spellings and what falls together, and writes nothing

What turns: each value, lemma and record field that an .antt file of specs/ or proofs/ declares (files of a function's own proof aside) and that has
a dash or a capital inside it, as 'nextLine' and 'find-here'. A dash stays between the names of two functions, as in 'length-encode'; a lemma that
would have a definition's name gets '_lem'; BY_HAND has names apart. Types and facts keep their camel case, and whatever Rattle or a library names
keeps its spelling: in a file a name turns where the file declares it, imports it from a crate of the repository, or has it as a field of a record.
It turns the names in specs/ and proofs/, in clauses, imports and comments of src/, in the must-fail edits, and in README, docs/DECISIONS.md and
docs/WRONG_ANSWERS.md.
"""

import os
import re
import sys

WORD = re.compile(r"[^\s(){}.;,@\"«»`|\[\]/:]+")
NAME = re.compile(r"[a-z][A-Za-z0-9]*(?:[-_][A-Za-z0-9]+)*'*$")
FUNCTION = re.compile(r"(?m)^\s*(?:abbrev|unfoldable) (?:pub )?([^\s:(){}.;,=λ]+)\s*:")
DECLARED = re.compile(r"^\s*(?:(?:abbrev|unfoldable|pub)\s+)*([^\s:(){}.;,=λ]+)\s*(?:[({][^:]*:[^:]*[)}]\s*)*:(?:\s|$)")
USE = re.compile(r"\buse\s+([^\s{;]+?)\.?\{([^}]*)\}")
CLAUSE = re.compile(r"\b(?:requires|ensures|ghost)\b[^{;]*")


# names of the logic that lemmas are named after
LOGIC = set(
    "length append drop take map reverse min max cond not and or get_or set sum true false cons nil none some add sub mul div mod leb eqb suc zero le lt".split()
)
functions = set()

# the library has a tactic of that name, which a file that forgot the import would take
BY_HAND = {"first_of": "first_number"}


def humps(name):
    return re.sub(r"([a-z0-9])([A-Z])", lambda m: m.group(1) + "_" + m.group(2).lower(), name)


def snake(name):
    """In snake case; dashes stay where all that they part are names of functions, as in 'length-drop'."""
    first, *others = (humps(part) for part in name.split("-"))
    names = [first]
    for part in others:
        if {names[-1], part} <= functions | LOGIC:
            names.append(part)
        else:
            names[-1] += "_" + part
    return ("-" if set(names) <= functions | LOGIC else "_").join(names)


def crates():
    with open("crates.txt", encoding="utf-8") as f:
        rows = (line.split("#")[0] for line in f)
        return [row.split(":")[0].split()[0] for row in rows if row.strip()]


def antt_files(crate):
    for part in ("specs", "proofs"):
        for folder, dirs, files in os.walk(os.path.join("crates", crate, part)):
            dirs.sort()
            for f in sorted(files):
                if f.endswith(".antt"):
                    yield os.path.join(folder, f)


def is_own_proof(path):
    """A function's own proof lies in the function's folder; a file of lemmas right in proofs/ may have the same name."""
    folder, name = os.path.split(path)
    return name in ("Proof.antt", "Answers.antt", "Invariants.antt") and os.path.basename(folder) != "proofs"


def read(path):
    with open(path, encoding="utf-8") as f:
        return f.read()


def code_of(text):
    return re.sub(r"(?m)(?:(?<=\s)|^)--.*$", "", text)


table = {}


def respelled(name):
    return table.get(name, name)


def declared_in(text):
    """The names that a file declares, each with whether it is a field of a record."""
    found, record = {}, False
    # a local name, or another name for an import
    for name in re.findall(r"\blet\s+([a-z]\w*)\s*[:=]", text) + re.findall(r"\bas\s+([a-z]\w*)\s*[,}]", text):
        if re.search("[A-Z]", name):
            found[name] = False
    for line in code_of(text).split("\n"):
        if re.match(r"\s*(?:abbrev |pub )*record\s", line):
            record = True
            continue
        if line.strip() and not line.startswith(" "):
            record = False
        m = DECLARED.match(line)
        if m:
            found[m.group(1)] = found.get(m.group(1), False) or record
    return found


def imported_in(text, own):
    """The names that a file imports, from the repository's crates and from elsewhere."""
    ours, others = set(), set()
    for m in USE.finditer(text):
        mine = m.group(1).split(".")[0] == "Rattle" and m.group(1).split(".")[1] in own
        for item in m.group(2).split(","):
            words = item.split()
            if words:
                (ours if mine else others).update(w for w in words if w != "as")
    return ours, others


def turn(text, names, fields):
    """Whole words of the code, and of a comment's code spans; a name in a comment that no English word could be turns there too."""

    def one(m):
        w = m.group(0)
        behind = m.start() > 0 and m.string[m.start() - 1] == "."
        return respelled(w) if w in names or (w in fields and behind) or w in bound_fields else w

    def comment(line):
        def word(m):
            return respelled(m.group(0)) if re.search("[a-z0-9][A-Z]", m.group(0)) else m.group(0)

        line = re.sub(r"`[^`]*`", lambda m: WORD.sub(lambda x: respelled(x.group(0)), m.group(0)), line)
        return WORD.sub(word, line)

    out = []
    for line in text.split("\n"):
        m = re.search(r"(?:(?<=\s)|^)--.*$", line)
        head, tail = (line[: m.start()], m.group(0)) if m else (line, "")
        bound_fields = {w for w in fields if re.search(r"(?:[{;]|^)\s*" + re.escape(w) + r"\s+[=:]", head)}
        parts = re.split(r'("[^"]*")', head)
        head = "".join(p if i % 2 else WORD.sub(one, p) for i, p in enumerate(parts))
        out.append(head + comment(tail))
    return "\n".join(out)


def main():
    own = crates()
    texts, declared, fields, others = {}, {}, set(), set()
    for crate in own:
        for path in antt_files(crate):
            texts[path] = read(path)
            if not is_own_proof(path):
                declared[path] = declared_in(texts[path])
                functions.update(humps(n) for n in FUNCTION.findall(texts[path]) if "-" not in n)
            others |= imported_in(texts[path], own)[1]
    for path, found in declared.items():
        for name, is_field in found.items():
            new = BY_HAND.get(name) or (humps(name.replace("-", "_")) if is_field else snake(name))
            if new != name and NAME.match(name) and name not in others:
                table[name] = new
                if is_field:
                    fields.add(name)
    # a lemma that would have a definition's name is told apart by its end
    every = {n for found in declared.values() for n in found} | others
    for name in sorted(table):
        if "-" in name and (table[name] in every or any(n != name and table[n] == table[name] for n in table)):
            table[name] += "_lem"
    rust = {}
    for crate in own:
        for folder, _, files in os.walk(os.path.join("crates", crate, "src")):
            for f in files:
                if f.endswith(".rt"):
                    rust[os.path.join(folder, f)] = read(os.path.join(folder, f))
    # another name for an import of src/
    for text in rust.values():
        for old in re.findall(r"\bas\s+([a-z]\w*)\s*[,}]", text):
            table.setdefault(old, snake(old))
    if "--list" in sys.argv[1:]:
        members = set()
        for text in rust.values():
            members |= set(re.findall(r"(?m)^\s+(?:pub )?(\w+): ", text))
            members |= set(re.findall(r"\b(\w+): &?(?:mut )?\[?\w", text))
        for old, new in sorted(table.items()):
            said = []
            if new in every:
                said.append("another definition or import")
            if new in members:
                said.append("a field or parameter of src/")
            if sum(1 for o, n in table.items() if n == new) > 1:
                said.append("two spellings")
            print(old, new, "field" if old in fields else "", *(["<- " + ", ".join(said)] if said else []), sep="\t")
        return
    for path, text in texts.items():
        names = (set(declared.get(path, ())) | imported_in(text, own)[0]) & set(table)
        new = turn(text, names, fields)
        if new != text:
            with open(path, "w", encoding="utf-8") as f:
                f.write(new)
    # src/: clauses and imports; a camel-case name is no name of code, so it turns in comments too
    camel = {n for n in table if re.search("[a-z0-9][A-Z]", n)}
    for path, text in rust.items():
        names = imported_in(text, own)[0] & set(table) | camel
        new = WORD.sub(lambda m: respelled(m.group(0)) if m.group(0) in names else m.group(0), text)
        if new != text:
            with open(path, "w", encoding="utf-8") as f:
                f.write(new)
    pages = ["README.md", "docs/DECISIONS.md", "docs/WRONG_ANSWERS.md"]
    for crate in own:
        folder = os.path.join("crates", crate, "must-fail")
        if os.path.isdir(folder):
            pages += [os.path.join(folder, f) for f in sorted(os.listdir(folder)) if f.endswith(".edit")]
    for path in pages:
        text = read(path)
        new = WORD.sub(lambda m: respelled(m.group(0)) if m.group(0) in camel else m.group(0), text)
        if new != text:
            with open(path, "w", encoding="utf-8") as f:
                f.write(new)


main()
