#!/usr/bin/env python3
"""Prints the public signatures and clauses of the libraries and the definitions of specs/ that changed since a tree, old and new side by side.

    tools/port/side.py OLD     OLD is a folder with the crates/ of the older commit; the kit's contracts.py is asked what changed
"""
import glob
import json
import os
import re
import subprocess
import sys

TOP = os.path.dirname(os.path.dirname(os.path.dirname(os.path.abspath(__file__))))
PROGRAMS = {"replay", "guard_scenarios", "memory_vectors", "header_vectors", "name_vectors", "image_vectors", "policy_vectors"}


def kit():
    rt = os.path.realpath(subprocess.run(["which", "rt"], capture_output=True, text=True, check=True).stdout.strip())
    return os.path.dirname(os.path.dirname(rt))


def public(root):
    found = set()
    for path in glob.glob(root + "/crates/*/src/*.rt"):
        crate = path.split("/crates/")[1].split("/")[0]
        with open(path, encoding="utf-8") as file:
            for match in re.finditer(r'^\s*pub (?:extern "C" )?fn (\w+)', file.read(), re.M):
                found.add((crate, match.group(1)))
    return found


def cell(text):
    return "`" + re.sub(r"\s+", " ", text).replace("|", "¦").strip() + "`"


def clauses(requires, ensures):
    named = [("requires", n, c) for n, c in requires] + [("ensures", n, c) for n, c in ensures]
    return "; ".join(" ".join(part for part in (kind, name, clause) if part) for kind, name, clause in named)


def table(title, rows):
    print("\n### %s\n\n| in | old | new |\n|-|-|-|" % title)
    for where, old, new in rows:
        print("| %s | %s | %s |" % (where, cell(old), cell(new)))


def main():
    old = sys.argv[1]
    text = subprocess.run([sys.executable, kit() + "/port/contracts.py", old, TOP, "--json"], capture_output=True, text=True, check=True).stdout
    told = json.loads(text)
    shown = public(old) | public(TOP)

    def is_shown(key):
        crate, name = key.split()[0], key.split()[-1]
        return crate not in PROGRAMS and (crate, name.split("::")[-1]) in shown

    def where(key):
        return key.split()[0] + ": " + key.split()[-1]

    table("Public signatures of the libraries", [(where(k), o, n) for k, o, n in told["signatures changed"] if is_shown(k)])
    table("Clauses of public functions of the libraries",
          [(where(k), clauses(r0, e0), clauses(r1, e1)) for k, r0, e0, r1, e1 in told["contracts changed"] if is_shown(k)])
    table("Definitions of specs/", [(c + ": " + f, " ".join(o), " ".join(n)) for c, f, o, n in told["definitions"]["changed"] if c not in PROGRAMS])


main()
