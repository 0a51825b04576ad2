#!/usr/bin/env python3
"""Brings the names of the definitions, fields and lemmas of crates/ to one spelling, once, at the top of the repository.

    python3 tools/respell.py          rewrites specs/, proofs/, must-fail/ and the clauses of src/
    python3 tools/respell.py --list   writes nothing, and prints each old name and its new one

Words are joined by `_`. A dash stays where it joins two names: of definitions, of functions, or of the library. The types, the modules
and what the source declares keep their names. A name that would fall together with another one gets `_lem`.
"""
import glob
import re
import sys

PART = r"[^\s(){}\[\],;.`]+"
DECLARED = re.compile(r"^\s*(?:abbrev |unfoldable |pub |ruleset )*(" + PART + r") (?::|=)(?: |$)", re.M)
# A name that is no field and no part of a path.
STANDING = re.compile(r"(?<![^\s(){}\[\],;`])" + PART)
# Names that are the generated proofs' own: they follow the source.
MADE = re.compile(r"^\s*(" + PART + r") : tie\.", re.M)
# Names of the library that a file writes without a use line, or as a part of a longer name.
LIBRARY = set("uint bool shr mut slice vals tells makes lawful".split())


def antt():
    return sorted(glob.glob("crates/*/specs/**/*.antt", recursive=True) + glob.glob("crates/*/proofs/**/*.antt", recursive=True))


def read(path):
    with open(path, encoding="utf-8") as f:
        return f.read()


def snake(word):
    word = re.sub(r"([A-Z]+)([A-Z][a-z])", r"\1_\2", word)
    return re.sub(r"([a-z0-9'])([A-Z])", r"\1_\2", word).lower()


def in_code(text):
    return re.sub(r"--[^\n]*", "", text)


def gathered():
    """What specs/ and proofs/ declare, what they take from the library, the functions of src/, and every word that is written."""
    specs, declared, made, taken, words = set(), set(), set(), set(), set()
    for path in antt():
        text = in_code(read(path))
        words |= set(re.findall(PART, text))
        names = set(DECLARED.findall(text))
        made |= set(MADE.findall(text)) | {n for n in names if n.endswith(("-spec", "_spec"))}
        declared |= names
        if "/specs/" in path:
            specs |= names
        for module, items in re.findall(r"^use (\S+)\.\{([^}]*)\}", text, re.M):
            own = re.match(r"Rattle\.(\w+)\.", module)
            if not own or own[1] == "std":
                taken |= {i.split(" as ")[0].strip() for i in items.split(",")}
    functions = set()
    for path in glob.glob("crates/*/src/**/*.rt", recursive=True):
        functions |= set(re.findall(r"\bfn (\w+)", read(path)))
    return specs, declared - taken, made, taken, functions, words


def renames():
    specs, declared, made, taken, functions, words = gathered()
    new = {}
    plain = re.compile(r"[a-z][A-Za-z0-9_'\-]*\Z")
    for name in declared:
        if plain.match(name) and "-" not in name and snake(name) != name and not re.search(r"_[A-Z]", name):
            new[name] = snake(name)
    for name in words - declared - taken:
        if plain.match(name) and re.search(r"[a-z][A-Z]", name) and "-" not in name and not re.search(r"_[A-Z]", name):
            new[name] = snake(name)
    known = {new.get(n, n) for n in specs} | functions | {t for t in taken if re.match(r"[a-z]\w*\Z", t)}
    long = {n for n in known if "_" in n}
    for name in sorted(declared - made):
        if "-" not in name or not plain.match(name):
            continue
        parts = []
        for word in name.split("-"):
            word = new.get(word, snake(word) if not re.search(r"_[A-Z]", word) else word)
            parts.append(word)
        i, said = 0, []
        while i < len(parts):
            for n in range(len(parts), i, -1):
                joined = "_".join(parts[i:n])
                if n == i + 1 or joined in long:
                    said.append((joined, joined in known))
                    i = n
                    break
        text = said[0][0]
        for (_, left), (right, is_name) in zip(said, said[1:]):
            text += ("-" if left and is_name else "_") + right
        if text != name:
            new[name] = text
    new["takeBack"] = "take_back_met"  # a field, beside a module of the shorter name
    return settled(new, specs, declared, made)


def settled(new, specs, declared, made):
    """Gives `_lem` to each lemma that would fall together with a definition or with another lemma.

    Returns the new names, and those that hold only where the old name is no field: there a step of a proof may have that name."""
    defined = {new.get(n, n) for n in specs}
    apart = {}
    standing = {}
    for path in antt():
        for name in set(STANDING.findall(in_code(read(path)))):
            standing.setdefault(name, set()).add(path)
    for name in sorted(n for n in new if "-" in n):
        alike = [k for k in new if k != name and new[k] == new[name]]
        if new[name] in defined | declared or alike or standing.get(name, set()) & standing.get(new[name], set()):
            new[name] += "_lem"
    for name in sorted(n for n in new if "-" not in n):
        if new[name] in declared - made - specs and standing.get(name, set()) & standing.get(new[name], set()):
            apart[new[name]] = new[name] + "_lem"
    return new, apart


def turned(text, names):
    new, apart = names
    text = STANDING.sub(lambda m: apart.get(m[0], m[0]), text)
    return re.sub(PART, lambda m: new.get(m[0], m[0]), text)


def turned_quotes(text, new):
    return re.sub(r"`([^`\n]+)`", lambda m: "`" + turned(m[1], new) + "`", text)


def turned_file(path, text, new):
    comment = "//" if path.endswith(".rt") else "--"
    out = []
    for line in text.split("\n"):
        code, mark, said = line.partition(comment)
        if path.endswith(".rt") and '"' in code:
            out.append(line)
            continue
        out.append(turned(code, new) + mark + turned_quotes(said, new))
    return "\n".join(out)


def main():
    new = renames()
    if "--list" in sys.argv:
        for old, name in sorted((new[0] | new[1]).items()):
            print(old, name)
        return
    paths = antt() + glob.glob("crates/*/src/**/*.rt", recursive=True) + glob.glob("crates/*/must-fail/*.edit")
    for path in sorted(paths):
        text = read(path)
        if path.endswith(".edit"):
            text2 = re.sub(r"^((?:old|new): .*)$", lambda m: turned(m[1], new), text, flags=re.M)
        else:
            text2 = turned_file(path, text, new)
        if text2 != text:
            with open(path, "w", encoding="utf-8") as f:
                f.write(text2)


main()
