#!/usr/bin/env python3
"""Turns the old proofs that close `tie.spec` with a search for each need into Invariants.antt and Answers.antt: run once, at the top of the repository,
after respell.py.

    rt names NAMES && answers.py NAMES [CRATE..]

`rt names` says, for each function, what its loops and goals were called and what they are called now. A proof of another form is left as it is and
printed.
"""
import json
import re
import sys
from pathlib import Path

TOP = Path.cwd()
WORD = re.compile(r"(?<![\w\-.'])[^\s(){};,.\[\]]+")


def arguments(text):
    """The arguments of an application, in parentheses or bare."""
    out, depth, word = [], 0, ""
    for ch in text:
        if ch == "(":
            depth += 1
        if ch == ")":
            depth -= 1
        if ch.isspace() and depth == 0:
            if word:
                out.append(word)
            word = ""
            continue
        word += " " if ch.isspace() else ch
    if word:
        out.append(word)
    return [re.sub(r" +", " ", w) for w in out]


def declaration(text, name):
    m = re.search(rf"^abbrev {re.escape(name)} :[^\n]*\n{re.escape(name)}([^=\n]*)=((?:.|\n)*?)(?=\n\n|\Z)", text, re.M)
    return (m[1].split(), m[2].strip(), m[0]) if m else None


def substituted(body, names):
    return WORD.sub(lambda m: names.get(m[0], m[0]), body)


def parameters(pars, variables, changed):
    """What each of an invariant's parameters is called in the record of the loop's variables."""
    names = {}
    at = 0
    for v, c in zip(variables, changed):
        if at < len(pars):
            names[pars[at]] = f"l.initial.{v}" if c else f"l.{v}"
        at += 1
    for v, c in zip(variables, changed):
        if c:
            if at < len(pars):
                names[pars[at]] = f"l.{v}"
            at += 1
    return names, at == len(pars)


def in_steps(term, places):
    """A path through the places that the old proof walked, as the step that it led to."""
    steps = {}
    for _, _, (old, new), _, _ in places:
        steps.setdefault(old.replace("-", "_"), new)

    def step(m):
        return "c." + steps.get(m[1].replace("-", "_"), m[1])

    return re.sub(r"\bc(?:\.before)*\.([A-Za-z_][\w\-]*)", step, term)


def convert(path, crate, info, left):
    text = path.read_text()
    function = ".".join(path.parent.relative_to(TOP / "crates" / crate / "proofs").parts)
    said = path.relative_to(TOP)
    if "tie.spec" not in text:
        left.append(f"{said}: no tie.spec")
        return
    if info is None:
        left.append(f"{said}: no names")
        return
    spec = re.search(r"^pub (\S+) :[^\n]*\n(unfolding [^\n]*\n)?\1 =((?:.|\n)*)\Z", text, re.M)
    if not spec:
        left.append(f"{said}: no spec")
        return
    inner = re.search(r"tie\.close\s*\(tie\.spec((?:.|\n)*)\)\s*\Z|tie\.close\s+(tie\.spec)\s*\Z", spec[3])
    opened = spec[2] or ""
    grouped = not inner
    if grouped:
        # `all7 (tie.spec A B (..)) (search R) ..`: the invariants, and what is searched with
        loops_of = re.findall(r"(?:invariant|decreases)-[^\s()]+", spec[3])
        args = loops_of + ["(λ c. " + s + ")" for s in re.findall(r"search (?:\([^()]*\)|[^\s()]+)(?: depth \d+)?", spec[3])]
    else:
        args = arguments(inner[1] or "")
    before = text[: spec.start()]
    loops = list(zip(info["loops"], info["changed"]))
    invariants, measures = [], []
    while args and re.fullmatch(r"(invariant|decreases)-\S+", args[0]):
        (invariants if args[0].startswith("inv") else measures).append(args.pop(0))
    needs = info["needs"]
    fit = len(needs) == len(args) and not grouped
    if not fit and not grouped:
        left.append(f"{said}: {len(args)} answers for {len(needs)} goals: {' '.join(n[0] for n in needs)}")
    lemmas = before
    written = []
    for name in invariants + measures:
        kind, _, loop = name.partition("-")
        found = declaration(before, name)
        at = next((k for k, (l, _) in enumerate(loops) if l[0][0] == loop), None)
        if not found or at is None:
            left.append(f"{said}: {name} not found")
            return
        pars, body, whole = found
        (old, new), variables = loops[at][0]
        names, fits = parameters(pars, variables, loops[at][1])
        if not fits:
            left.append(f"{said}: {name} has {len(pars)} parameters, of {variables} {loops[at][1]}")
        lemmas = lemmas.replace(whole, "")
        written.append(f"abbrev pub {kind}-{new} : goal.{kind}-{new}\n{kind}-{new} l = {substituted(body, names)}\n")
    comment = re.match(r"(?:--[^\n]*\n)*", before)[0]
    imports = [l for l in before.split("\n") if l.startswith("use ") and " as tie" not in l and ".Statement." not in l and " as stated" not in l]
    rest = re.sub(r"\n{3,}", "\n\n", "\n".join(l for l in lemmas.split("\n") if not l.startswith("use ") and not l.startswith("--"))).strip()
    here = f"Rattle.{crate}.proofs.{function}"
    folder = path.parent
    if written:
        shared = rest + "\n\n" if rest and any(re.search(r"(?<![\w\-'])" + re.escape(d) + r"(?![\w\-'])", w) for d in re.findall(r"^\s*(?:\w+ )*(\S+) :", rest, re.M) for w in written) else ""
        (folder / "Invariants.antt").write_text(comment + "\n".join(imports + [f"use {here}.Given as goal"]) + "\n\n" + shared + "\n".join(written))
    answers = []
    if fit:
        for (old, new), arg in zip(needs, args):
            m = re.fullmatch(r"\(λ ([^.]*)\.\s*(.*)\)", arg)
            if m:
                term = m[2]
            else:
                term = None
            if term is None:
                left.append(f"{said}: answer {arg}")
                continue
            if re.fullmatch(r"search rules", term):
                continue
            term = in_steps(term, info["places"])
            answers.append(f"pub {new} : goal.{new}\n{opened}{new} c = {term}\n")
            if not re.fullmatch(r"search \S+( depth \d+)?", term):
                left.append(f"{said}: by hand: {new}: {term}")
    else:
        sets = sorted({m.strip() for a in args for s in re.findall(r"search (\([^()]*\)|[^\s()]+)", a) for m in s.strip("()").split(",")} - {"rules"})
        depth = max(re.findall(r" depth \d+", spec[3]), default="")
        for old, new in needs:
            if sets:
                term = f"search {sets[0]}" if len(sets) == 1 else f"search ({', '.join(sets)}, rules)"
                answers.append(f"pub {new} : goal.{new}\n{opened}{new} c = {term}{depth}\n")
    if answers:
        (folder / "Answers.antt").write_text(comment + "\n".join(imports + [f"use {here}.Goals as goal"]) + "\n\n" + (rest + "\n\n" if rest else "") + "\n".join(answers))
    path.unlink()


def main():
    crates = sys.argv[2:] or [l.split(":")[0].split()[0] for l in (TOP / "crates.txt").read_text().split("\n") if l and not l.startswith("#")]
    left = []
    for crate in crates:
        proofs = sorted(p for p in (TOP / "crates" / crate).glob("proofs/**/Proof.antt"))
        if not proofs:
            continue
        listed = Path(sys.argv[1]) / "crates" / crate / "names.json"
        if not listed.exists():
            left.append(f"{crate}: no names")
            continue
        table = json.loads(listed.read_text())
        for path in proofs:
            function = ".".join(path.parent.relative_to(TOP / "crates" / crate / "proofs").parts)
            convert(path, crate, table.get(f"Rattle-{crate}-proofs.{function}.Lts"), left)
    print("\n".join(left))


main()
