#!/usr/bin/env python3
"""Brings this repository's own names to the spelling of the Rattle that it is proved with: run once, at its top, straight after the kit's port.py.

Definitions, lemmas and fields are in snake case (`goodOrAny` and `both-second` become `good_or_any` and `both_second`); types, modules and their
constructors keep their capitals; a prime is an apostrophe. A lemma that would then have the name of a definition gets `_lem` behind it. A file
`specs/Contracts.antt` becomes `specs/Promises.antt`, since Rattle makes a module `contracts` of its own. Functions of src/, exported names and
strings are not touched. Proof.antt files are left to answers.py, but for the names of lemmas in them. What falls together is printed.
"""
import re
import sys
from pathlib import Path

TOP = Path.cwd()
IDENT = r"[^\s(){};,.\[\]\"`]+"
TOKEN = re.compile(r"[A-Za-z_\u03b1-\u03c9\u2080-\u2089'′][A-Za-z0-9_\-\u03b1-\u03c9\u2080-\u2089'′]*")
DECLARED = re.compile(r"^\s*(?:(?:pub|abbrev|unfoldable) )*(" + IDENT + r")(?: \{[^}]*\})* :(?:\s|$)", re.M)
OTHERS = [
    re.compile(r"^\s*(?:(?:pub|abbrev|unfoldable) )*(?:record|data|ruleset) (" + IDENT + ")", re.M),
    re.compile(r"\blet (" + IDENT + r")(?:(?: :|\s*=)|\s)"),
    re.compile(r"[({]([^(){}:]+?) : "),
]
IMPORT = re.compile(r"^(?:ghost )?use ([^\s{]+)\.\{([^}]*)\};?$", re.M)


def snake(name):
    name = name.replace("′", "'")
    if re.search(r"[a-z][A-Z].*[a-z]\d+$", name):
        name = re.sub(r"(\d+)$", r"_\1", name)
    if name[0].isupper():
        return name.replace("-", "_") if "-" in name else name
    name = re.sub(r"(?<=[a-z0-9'])([A-Z])", lambda m: "_" + m[1].lower(), name)
    return name.replace("-", "_")


def own(path):
    return path.startswith("Rattle.") and not path.startswith("Rattle.std.")


def sources():
    yield from sorted(TOP.glob("crates/*/specs/**/*.antt"))
    yield from sorted(TOP.glob("crates/*/proofs/**/*.antt"))


def main():
    declared, definitions = {}, set()
    for path in sources():
        if path.name == "Proof.antt":
            continue
        text = path.read_text()
        names = DECLARED.findall(text)
        for more in OTHERS:
            for found in more.findall(text):
                names += found.split()
        for name in names:
            if TOKEN.fullmatch(name):
                declared.setdefault(name, set()).add(path)
                if "specs" in path.parts:
                    definitions.add(name)
    # what the files import from the kit's libraries keeps its name, whoever declares a name alike
    kits = set()
    for path in list(sources()) + sorted(TOP.glob("crates/*/src/**/*.rt")):
        for module, names in IMPORT.findall(path.read_text()):
            if not own(module) or ".declared." in module or ".contracts." in module:
                kits |= {n.split(" as ")[0].strip() for n in names.split(",")}
    rename, taken, lemmas = {}, {}, {}
    for name in sorted(declared, key=lambda n: (n not in definitions, "-" in n, n)):
        if name in kits or snake(name) == name:
            continue
        new = snake(name)
        if name in definitions and new in declared and new not in definitions and new not in kits and new not in taken:
            # the kit's script has turned the lemma's name already
            print(f"falls together: {name} and the lemma {new}, which becomes {new}_lem")
            lemmas[new] = new + "_lem"
        elif new in kits or new in taken or new in declared:
            print(f"falls together: {name} and {taken.get(new, new)}: {new}_lem" + (" (kit)" if new in kits else ""))
            new += "_lem"
        rename[name] = new
        taken[new] = name
    for name in sorted(kits & set(declared)):
        if snake(name) != name:
            print(f"kept, since the kit has it: {name}")

    def turn(text, code=False):
        def new(m):
            if m[0] in lemmas and not code and m.string[m.start() - 1 : m.start()] != "." and m.string[m.end() : m.end() + 1] != ".":
                return lemmas[m[0]]
            return rename.get(m[0], m[0].replace("′", "'"))

        return TOKEN.sub(new, text)

    def turn_line(line, is_code):
        # a comment keeps its hyphens, and only names in backquotes are turned there
        code, dashes, comment = re.match(r"^(.*?)((?:(?<=\s)|^)(?:--|//)(?=\s|$))(.*)$", line).groups() if re.search(r"(?:(?<=\s)|^)(?:--|//)(?=\s|$)", line) else (line, "", "")
        parts = re.split(r'("(?:[^"\\]|\\.)*")', code)
        code = "".join(p if p.startswith('"') else turn(p, is_code) for p in parts)
        comment = re.sub(r"`[^`]*`", lambda m: turn(m[0]), comment)
        return code + dashes + comment

    for path in list(sources()) + sorted(TOP.glob("crates/*/src/**/*.rt")):
        text = path.read_text()
        new = "\n".join(turn_line(line, path.suffix == ".rt") for line in text.split("\n"))
        new = re.sub(r"\bspecs\.Contracts\b", "specs.Promises", new)
        if path.name == "Lib.antt":
            new = re.sub(r"^((?:pub )?mod )Contracts$", r"\1Promises", new, flags=re.M)
        if new != text:
            path.write_text(new)
    for path in sorted(TOP.glob("crates/*/specs/Contracts.antt")):
        path.rename(path.with_name("Promises.antt"))
    if "--names" in sys.argv:
        for name in sorted(rename):
            print(name, rename[name])
        for name in sorted(lemmas):
            print(name, lemmas[name])


main()
