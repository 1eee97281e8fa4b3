#!/usr/bin/env python3
"""Brings the repository's own definitions and lemmas to one spelling: words in snake case, types and facts in upper camel case.

usage: python3 tools/spelling.py [FOLDER] [--dry]     in the repository, or for the one in FOLDER: once, after the kit's port.py

It goes by the declarations: every name that a file of crates/*/specs or crates/*/proofs declares, at its left edge, in a module, as a field, as a constructor or by `as`.
Where its type ends in `Type 0` and it has a capital it is a type or a fact, and its parts are joined in camel case (`Enough-memory` becomes
`EnoughMemory`); else dashes and humps become underscores (`cells-of` becomes `cells_of`, `cellsAt` becomes `cells_at`), and `getD`, which the library
calls `get_or` now, follows it. Names that Rattle generates (answers to goals, steps, places), names of the library, names of functions of src/,
strings and file names stay. It prints where names fall together, or where a file has the new name already.
"""
import os
import re
import sys

WORD = re.compile(r"[^\s(){}\[\];,.`\"@«»λ|↦]+")
DECLARED = re.compile(r"^ *(?:abbrev |unfoldable )?(?:pub )?((?:[^\s(){}:.=\"]+ )+): ?(.*)$")
TYPE = re.compile(r"^ *(?:pub )?(?:abbrev )?(?:data|record) ([^\s:]+)")
ALIAS = re.compile(r" as ([a-z][^\s(){}:.,;\"]*)[,}]")
GOAL = re.compile(r"^goal\.|\.Goals\.|\.Given\.")


def files(root, endings):
    for folder, dirs, names in os.walk(os.path.join(root, "crates")):
        dirs[:] = sorted(d for d in dirs if d != "out")
        for n in sorted(names):
            if n.endswith(endings):
                yield os.path.join(folder, n)


def read(path):
    with open(path, encoding="utf-8") as f:
        return f.read()


def code(line):
    """The line without its comment."""
    i = 0 if line.startswith("--") else line.find(" --")
    return line if i < 0 else line[:i]


def depth(line):
    return len(line) - len(line.lstrip())


def signatures(text):
    """Each declared name, at the left edge, in a module or in a record, with its whole type, which may go on over lines that are indented further."""
    lines = text.split("\n")
    for i, raw in enumerate(lines):
        line = code(raw)
        if TYPE.match(line):
            yield TYPE.match(line).group(1), "Type 0"
            continue
        if line.startswith("use "):
            for name in ALIAS.findall(line):
                yield name, ""
            continue
        m = DECLARED.match(line)
        if not m or m.group(1).split()[0] in ("let", "in", "module"):
            continue
        kind = m.group(2)
        for more in lines[i + 1:]:
            if depth(more) <= depth(line):
                break
            kind += " " + code(more).strip()
        for name in m.group(1).split():
            yield name, kind.strip()


def spelled(name, kind):
    if name[:1].isupper() and re.search(r"Type 0$", kind):
        return "".join(p[:1].upper() + p[1:] for p in re.split("[-_]", name))
    name = name.replace("-", "_").replace("getD", "get_or")
    return re.sub(r"(?<=[a-z])[A-Z]", lambda m: "_" + m.group(0).lower(), name) if name[:1].islower() else name


def declared(root):
    found, generated = {}, set()
    for path in files(root, ".antt"):
        if "/specs/" not in path and "/proofs/" not in path:
            continue
        for name, kind in signatures(read(path)):
            if GOAL.search(kind):
                generated.add(name)
            elif re.match(r"^[A-Za-z]", name):
                found.setdefault(name, set()).add(spelled(name, kind))
    return found, generated


def turned(line, table, generated):
    """The line with each word of the table respelled, but for strings, and for `c.step` and `w.step` where these are records that Rattle generates."""
    parts = re.split(r'("(?:[^"\\]|\\.)*")', line)
    for i in range(0, len(parts), 2):
        part = parts[i]
        steps = {m.start(1) for m in re.finditer(r"\b[cw]\.([^\s.]+)", part)} if generated else ()
        parts[i] = WORD.sub(lambda m: m.group(0) if m.start() in steps else table.get(m.group(0), m.group(0)), part)
    return "".join(parts)


def main(argv):
    dry = "--dry" in argv
    argv = [a for a in argv if a != "--dry"]
    root = argv[0] if argv else "."
    found, generated = declared(root)
    table = {}
    for name, news in sorted(found.items()):
        if news == {name}:
            continue
        if name in generated:
            print(f"kept, a goal has this name too: {name}")
        elif len(news) > 1:
            print(f"two spellings: {name}: {sorted(news)}")
        else:
            table[name] = next(iter(news))
    backwards = {}
    for old, new in table.items():
        backwards.setdefault(new, []).append(old)
    for new, olds in backwards.items():
        if len(olds) > 1:
            print(f"fall together: {olds} as {new}")
    for path in files(root, (".antt", ".rt", ".edit")):
        text = read(path)
        words = set(WORD.findall(text))
        for old in words & table.keys():
            if table[old] in words:
                print(f"both in {os.path.relpath(path, root)}: {old} and {table[old]}")
        answers = os.path.basename(path) in ("Answers.antt", "Invariants.antt")
        new = "\n".join(turned(line, table, answers) for line in text.split("\n"))
        if new != text and not dry:
            with open(path, "w", encoding="utf-8") as f:
                f.write(new)
    print(f"{len(table)} names")


if __name__ == "__main__":
    main(sys.argv[1:])
