#!/usr/bin/env python3
"""Says whether docs/TRUST.md is closed and true. Its tables name files of definitions, files of statements (tables headed 'statements') and .rt files.

From the contracts and the statements it follows every name that a `use` line brings in from the repository to the file that defines it: of a .rt file the
names in the heads of its functions, of a file of statements those in the types of its public statements and in its own definitions (proofs do not count), of
a file of definitions all. It asks that each file so reached stands in a table, and each file of definitions in a table is so reached; that these say 'These
are definitions' and hold no law; that every file that says so is named, at least as an inner one; and that the lines beside a file are the file's.

    tools/trusted_files.py            what is not true, and exit status 1; nothing where all is true
    tools/trusted_files.py --write    the numbers of lines put right
"""
import glob
import os
import re
import sys

ROOT = os.path.join(os.path.dirname(os.path.abspath(__file__)), "..")
TRUST = "docs/TRUST.md"
# Where it starts: the contracts, and the theorems that docs/DEMANDS.md ends in.
STARTS = [f"crates/{p}/src/lib.rt" for p in ("sort_placement", "row_order", "feeds_in_order")]
STARTS += [f"crates/demands/proofs/{p}.antt" for p in ("OrderKept", "EnsurePasses", "RowsKept", "CheckedFiles", "RewrittenFiles", "RewrittenPlans", "AfterEnsuring", "SortedAlready")]
STARTS += ["crates/push_literal/proofs/SameAnswers.antt", "crates/walks/proofs/Theorems/PartialSort/Earlier.antt"]
ROW = re.compile(r"(\| `(crates/[\w/]+\.(?:antt|rt))` \| )(\d+)( \|)")
ITEM = re.compile(r"(- `(crates/[\w/]+\.antt)` \()(\d+)(\))")
TABLE = re.compile(r"(?m)^\| (file|statements) \|.*\n(?:\|.*\n)+")
CRATES = "|".join(sorted((line.split(":")[0].split()[0] for line in open(os.path.join(ROOT, "crates.txt")) if line.split("#")[0].strip()), key=len, reverse=True))
USE = re.compile(rf"(?m)^ *(?:ghost )?use Rattle\.({CRATES})\.(specs|proofs)\.([\w.-]+?)(?:\.\{{([^}}]*)\}}| as ([\w-]+));?$")
FUNCTION = re.compile(r"(?ms)^(?:pub )?(?:extern \"C\" )?fn .*?^\{")
HEAD = re.compile(r" *((?:(?:pub|abbrev|unfoldable) )*)(?:(module|record|data) (\S+)|([^\s()]+)(?: \{[^}]*\})? :)")


def spoken(path):
    """A file without its comments."""
    return "".join(line for line in open(path).read().splitlines(True) if not line.lstrip().startswith(("--", "//")))


def says_definitions(path):
    return "These are definitions" in " ".join(open(path).read().split("\n-- "))


# ---- the declarations of a file


def declarations(path):
    """(name, word, public, lines) of each; word: module, definition (abbrev, unfoldable, record, data: these with fields and constructors) or signature."""
    found, inside = [], -1
    for line in USE.sub("", spoken(path)).splitlines():
        indent = len(line) - len(line.lstrip())
        head = None if not line.strip() or indent > inside >= 0 else HEAD.match(line)
        if head:
            marks, block, block_name, name = head.groups()
            inside = indent if block in ("record", "data") else -1
            word = "module" if block == "module" else "definition" if block or marks.strip() not in ("", "pub") else "signature"
            found.append((block_name or name, word, word == "module" or "pub" in marks, [line]))
        elif found and line.strip():
            found[-1][3].append(line)
    return found


def type_of(name, lines):
    """The lines of a declaration before its first clause."""
    first = next((i for i, l in enumerate(lines) if i and l.split()[0] in (name, "unfolding")), len(lines))
    return "\n".join(lines[:first])


def stated(path):
    """What a file of statements states: types of its public statements, telescopes, definitions; and the private declarations that these mention."""
    rest, text = [], ""
    for name, word, public, lines in declarations(path):
        if public:
            text += (type_of(name, lines) if word == "signature" else "\n".join(lines)) + "\n"
        else:
            rest.append((name, "\n".join(lines)))
    while mentioned := [r for r in rest if r[0] in words_of(text)]:
        rest = [r for r in rest if r not in mentioned]
        text += "\n".join(r[1] for r in mentioned)
    return text


def laws(path):
    """What a file declares beside definitions. That equality is decided (`Discrete`) is no law: there is one answer to it."""
    return [name for name, word, public, lines in declarations(path) if word == "signature" and ": Discrete " not in type_of(name, lines)]


# ---- what a file rests on


def words_of(text):
    return set(re.findall(r"[^\s(){};,.«»⌜⌝]+", text))


def file_of(crate, part, module):
    """The file that has a module of a crate's specs or proofs: of a declared type the .rt file that declares it."""
    if not module.startswith("declared."):
        return f"crates/{crate}/{part}/{module.replace('.', '/')}.antt"
    declared = re.compile(rf"(?m)^pub (?:enum|struct) {module.split('.')[1]}\b")
    return next((p for p in sorted(glob.glob(f"crates/{crate}/src/**/*.rt", recursive=True)) if declared.search(open(p).read())), f"crates/{crate}/src")


def rests_on(path, statements):
    """The files that a file rests on, each with a name that leads to it."""
    text = spoken(path)
    counted = None
    if path.endswith(".rt"):
        counted = words_of(" ".join(FUNCTION.findall(text)))
    elif path in statements:
        counted = words_of(stated(path))
    found, uses = {}, USE.findall(text)
    assert len(uses) == len(re.findall(rf"(?m)^ *(?:ghost )?use Rattle\.(?:{CRATES})\.", text)), f"{path}: a use line that is not understood"
    for crate, part, module, names, alias in uses:
        for name in [alias] if alias else names.split(","):
            here = name.split(" as ")[-1].strip()
            if counted is None or any(word in counted for word in here.split("◌") if word):
                found.setdefault(file_of(crate, part, module), here)
    return found


def reached(tables, statements):
    """Each file that the contracts and the statements rest on, with the way to it."""
    way = {p: "" for p in STARTS + sorted(statements)}
    queue = list(way)
    for path in queue:
        if path not in tables and not (os.path.exists(path) and says_definitions(path)):
            continue
        for target, name in rests_on(path, statements).items():
            if target not in way:
                way[target] = f" ({name}), from {path}{way[path]}"
                queue.append(target)
    return way


# ---- the numbers of lines


def with_lines(match):
    """The row or item with the number of lines that its file has."""
    path = match.group(2)
    if not os.path.exists(path):
        return match.group(0)
    return match.group(1) + str(open(path).read().count("\n")) + match.group(4)


def with_sums(text):
    """The numbers of lines in a section's heading are the sums over its tables, in their order."""
    sections = re.split(r"(?m)^(?=## )", text)
    for i, section in enumerate(sections):
        sums = iter([sum(int(m.group(3)) for m in ROW.finditer(t.group(0))) for t in TABLE.finditer(section)])
        first, rest = section.split("\n", 1)
        if first.startswith("## "):
            sections[i] = re.sub(r"\d+(?= lines)", lambda m: str(next(sums, m.group(0))), first) + "\n" + rest
    return "".join(sections)


def wrongs(text):
    tables, statements = set(), set()
    for table in TABLE.finditer(text):
        named = {m.group(2) for m in ROW.finditer(table.group(0))}
        tables |= named
        statements |= named if table.group(1) == "statements" else set()
    inner = {m.group(2) for m in ITEM.finditer(text)}
    missing = [f"not there: {p}" for p in sorted(tables | inner) if not os.path.exists(p)]
    if missing:
        return missing
    statements = {p for p in statements if p.endswith(".antt")}
    definitions = {p for p in tables - statements if p.endswith(".antt")}
    way = reached(tables, statements)
    wrong = [f"not in a table: {p}{way[p]}" for p in sorted(way) if p not in tables]
    wrong += [f"nothing in the tables rests on {p}" for p in sorted(definitions) if p not in way]
    wrong += [f"does not say 'These are definitions': {p}" for p in sorted(definitions) if not says_definitions(p)]
    wrong += [f"a law among definitions: {name} in {p}" for p in sorted(definitions) for name in laws(p)]
    said = {p for p in glob.glob("crates/*/specs/**/*.antt", recursive=True) if "/out/" not in p and says_definitions(p)}
    return wrong + [f"not named: {p}" for p in sorted(said - tables - inner)]


def main():
    os.chdir(ROOT)
    text = open(TRUST).read()
    right = with_sums(ITEM.sub(with_lines, ROW.sub(with_lines, text)))
    if "--write" in sys.argv[1:]:
        open(TRUST, "w").write(right)
    wrong = wrongs(text)
    if right != text and "--write" not in sys.argv[1:]:
        wrong += ["numbers of lines are not the files' (--write puts them right)"]
    for line in wrong:
        print(f"{TRUST}: {line}")
    sys.exit(1 if wrong else 0)


main()
