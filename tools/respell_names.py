#!/usr/bin/env python3
"""Spells the names that the repository's own definitions and lemmas have as today's Rattle spells them.

    tools/respell_names.py          rewrites crates/*/specs, crates/*/proofs and the clauses of crates/*/src in place; prints each name that stays for a collision
    tools/respell_names.py --map    prints the old and the new name of each, and changes nothing

It is run once, right after the kit's port.py. A function, a lemma, a field or a constructor is in snake case. A dash stays where it joins two names of
definitions that the file declares or imports, as in length-drop; else a word is added by an underscore. Types and facts keep their capital. Functions of src/,
C names, strings, inputs and outputs keep their names.
"""
import collections
import glob
import os
import re
import subprocess
import sys

ROOT = os.path.join(os.path.dirname(os.path.abspath(__file__)), "..")
WORD = r"[^\s(){}.;,@\"«»\[\]`]+"
DECLARED = re.compile(r"(?m)^ *((?:" + WORD + r" )*?" + WORD + r")(?: \{[^{}\n]*\}| \([^()\n]*\))* :(?=\s)")
USED = re.compile(r"(?m)\buse [^\s{;]+\.\{([^{}]*)\}")
NAME = re.compile(r"(?<![\w'.-])[a-z][\w'-]*|(?<=\.)[a-z][\w'-]*")
# Words of the library that port.py has respelled, as parts of the repository's own names.
PARTS = {"getD": "get_or"}
# A lemma whose left side is a word of the library: bit (bit_or a b) d.
OTHERWISE = {"bit-or": "bit-bit_or"}
# Lemmas that port.py has respelled like a function that they speak of, each with the module that declares it.
LEMMAS = {
    "body_ok": "plan_codec.specs.Rules",
    "digits_in": "node_lines.specs.Laws",
    "four_bytes": "plan_codec.specs.FromRecord",
    "head_ok": "plan_codec.specs.Rules",
    "held_in": "row_reader.specs.Counts",
    "moved_by": "join_orders.specs.Orders",
    "own_keys": "step_nodes.specs.Moves",
    "stream_end": "row_bytes.specs.Rows",
    "with_rows": "stepping.specs.theorems.Lessening",
    "count_down": "walks.specs.theorems.calls.Counts",
    "count_by": "walks.specs.theorems.calls.Counts",
    "any_below": "walks.specs.theorems.ensure.Removal",
}


def files(kinds):
    return sorted(f for kind in kinds for f in glob.glob("crates/" + kind, recursive=True) if "/out/" not in f)


def snake(name):
    return re.sub(r"(?<=[a-z0-9])[A-Z](?![A-Z])", lambda m: "_" + m[0].lower(), re.sub(r"(?<=[a-z0-9])[A-Z](?=[A-Z]|$)", lambda m: "_" + m[0].lower(), name))


def respelled(name, names):
    """The name in snake case, with a dash only between two of names."""
    parts = [PARTS.get(it, it) for it in name.split("-")]
    out = snake(parts[0])
    for i, part in enumerate(parts[1:]):
        joins = parts[i] in names and part in names
        out += ("-" if joins else "_") + snake(part)
    return out


def turns(name):
    return name[:1].islower() and (re.search(r"[a-z0-9][A-Z]", name) or "-" in name) and re.fullmatch(r"[\w'-]+", name)


def renamed():
    found, plain = collections.defaultdict(set), set()
    for path in files(["*/specs/**/*.antt", "*/proofs/*.antt"]):
        text = open(path, encoding="utf-8").read()
        declared = [it for words in DECLARED.findall(text) for it in words.split() if it not in ("pub", "abbrev", "unfoldable", "data", "record", "let")]
        names = set(declared)
        for used in USED.findall(text):
            names.update(it.split(" as ")[-1].strip() for it in used.split(","))
        names = {it for it in names if "-" not in it}
        plain.update(it for it in declared if not turns(it))
        for name in declared:
            if turns(name):
                found[name].add(respelled(name, names))
    table = {name: max(ways, key=lambda it: (it.count("-"), it)) for name, ways in found.items()}
    # A lemma that would have the name of what it speaks of gets _lem.
    functions = {new for old, new in table.items() if "-" not in old} | plain
    table = {old: new + "_lem" if "-" in old and new in functions else new for old, new in table.items()}
    table.update(OTHERWISE)
    return {old: new for old, new in table.items() if old != new}


def words_of(text):
    """The words of a text, without those of comments and of modules' paths."""
    text = re.sub(r"(?m)(--|//).*$", "", text)
    return set(re.findall(r"[a-zA-Z][\w'-]*", re.sub(r"\bRattle\.[\w.+'-]+", "", text)))


def turned(text, table):
    """The text with its names respelled. Strings stay; in a comment a word that would get _lem is English, as well-formed is."""
    def name(m):
        if m[0][0] == '"':
            return m[0]
        if m[0].startswith(("--", "//")):
            return NAME.sub(lambda w: w[0] if table.get(w[0], "").endswith("_lem") else table.get(w[0], w[0]), m[0])
        return table.get(m[0], m[0])

    return re.sub(r'b?"(?:[^"\\\n]|\\.)*"|(?m:(?:--|//).*$)|' + NAME.pattern, name, text)


def lemmas_turned(path, text):
    """The lemmas of LEMMAS with _lem, where they are declared and where they are imported."""
    for name, module in LEMMAS.items():
        crate, _, rest = module.split(".", 2)
        imports = re.search(r"Rattle\." + re.escape(module) + r"\.\{[^{}]*\b" + name + r"\b", text)
        if imports or path == f"crates/{crate}/specs/{rest.replace('.', '/')}.antt":
            text = re.sub(r"(?<![\w'.-])" + name + r"(?![\w'-])", name + "_lem", text)
    return text


def camel(name):
    return "".join(it.capitalize() for it in name[: -len(".antt")].split("_")) + ".antt" if name.endswith(".antt") else "".join(it.capitalize() for it in name.split("_"))


def modules_turned(text):
    """Paths into specs/ and lines of a node file with each module in camel case."""
    text = re.sub(r"(?<=\bRattle\.)(\w+\.specs)((?:\.[A-Za-z]\w*)*)", lambda m: m[1] + module_path(m[2]), text)
    return re.sub(r"(?m)^((?:pub )?mod )([a-z]\w*)$", lambda m: m[1] + camel(m[2]), text)


def module_path(path):
    steps = path.split(".")[1:]
    if steps[:1] == ["contracts"] or steps[:1] == ["declared"]:
        return path
    return "".join("." + (camel(it) if it[:1].islower() else it) for it in steps)


def main():
    os.chdir(ROOT)
    table = renamed()
    if "--map" in sys.argv[1:]:
        for old in sorted(table):
            print(old, table[old])
        return
    every = files(["*/specs/**/*.antt", "*/proofs/**/*.antt", "*/src/**/*.rt"])
    texts = {path: open(path, encoding="utf-8").read() for path in every}
    words = {path: words_of(text) for path, text in texts.items()}
    # a new name that a file has already for something else
    for path, there in words.items():
        for old in [it for it in there if it in table]:
            if table[old] in there:
                print(f"{path}: {old} would be {table[old]}, which the file has already")
    seen = collections.defaultdict(set)
    for old, new in table.items():
        seen[new].add(old)
    for new, olds in seen.items():
        for path, there in words.items():
            if len(olds & there) > 1:
                print(f"{path}: {sorted(olds & there)} would both be {new}")
    if "--try" in sys.argv[1:]:
        return
    for path, text in texts.items():
        new = modules_turned(turned(lemmas_turned(path, text), table))
        if new != text:
            open(path, "w", encoding="utf-8").write(new)
    for path in sorted(files(["*/specs/**"]), key=len, reverse=True):
        folder, name = os.path.split(path)
        if name[:1].islower() and name != "specs":
            subprocess.run(["git", "mv", path, os.path.join(folder, camel(name))], check=True)


main()
