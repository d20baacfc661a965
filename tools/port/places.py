#!/usr/bin/env python3
"""Lists the places of src/ that are written in an older form, by point of docs/DESIGN-PASS.md.

    tools/port/places.py [POINT..]      a line for each place, and the count of each point
    tools/port/places.py --counts       the counts alone
"""
import collections
import glob
import os
import re
import sys

TOP = os.path.dirname(os.path.dirname(os.path.dirname(os.path.abspath(__file__))))


def sources():
    for path in sorted(glob.glob(TOP + "/crates/*/src/*.rt")):
        with open(path, encoding="utf-8") as file:
            yield os.path.relpath(path, TOP + "/crates"), file.read().split("\n")


def functions():
    """Path, line, name, head and body of each function."""
    for path, lines in sources():
        i = 0
        while i < len(lines):
            start = re.match(r"(\s*)(pub )?(extern \"C\" )?fn (\w+)", lines[i])
            if not start:
                i += 1
                continue
            indent = start.group(1)
            end = i
            while end < len(lines) and not re.match(indent + r"\}\s*$", lines[end]) and not (
                    end == i and lines[i].rstrip().endswith("}")):
                end += 1
            text = lines[i:end + 1]
            brace = next((k for k, line in enumerate(text) if re.match(indent + r"\{\s*$", line)
                          or (re.search(r"\{$", line) and not re.search(r"(requires|ensures)", line))), 0)
            yield path, i + 1, start.group(4), text[:brace + 1], text[brace + 1:]
            i = end + 1


def enums():
    for path, lines in sources():
        i = 0
        while i < len(lines):
            start = re.match(r"(pub )?enum (\w+)", lines[i])
            if start:
                end = i
                while lines[end] != "}":
                    end += 1
                yield path, i + 1, start.group(2), [line.strip() for line in lines[i + 1:end]]
                i = end
            i += 1


def point_1():
    for path, line, name, variants in enums():
        bare = [v for v in variants if re.match(r"(Bad|None|Nothing|Nobody|Short|Good),$", v)]
        if bare or any(re.match(r"Broken\(u8\),$", v) for v in variants):
            yield path, line, "enum " + name + ": " + " ".join(bare or ["Broken(u8)"])
    for path, lines in sources():
        for i, text in enumerate(lines):
            if re.match(r"\s+(pub )?(good|whole|is_\w+): bool,$", text):
                yield path, i + 1, "flag beside a value: " + text.strip()
            if re.match(r"// .*(, or 16\b|, or how many (there are|\w+ it has)|\b0 where (it is none|they|nothing|no |none))", text):
                yield path, i + 1, "a number for none: " + text.strip()[3:60]
            if re.search(r"\b(refused|no_(connect|own|piece|gone|tick)|Broken|plain)\([0-9]+\)|^\s*(return )?(3[0-9]|4[01]|5[0-4]|6[78]);?$|answer: [1-9][0-9]*,", text) \
                    and not text.lstrip().startswith("//"):
                yield path, i + 1, "a number for a refusal: " + text.strip()
            if re.search(r"\b(kind|context|matcher|of|code) == [0-9]+ *[|{&)]|^\s*[0-9]+ => ", text):
                yield path, i + 1, "a number for a kind: " + text.strip()


def shape(lines):
    text = " ".join(line for line in lines if not line.strip().startswith("//"))
    tokens = re.findall(r"[A-Za-z_]\w*|b?'[^']*'|\d\w*|\S", text)
    kept = {"if", "else", "while", "for", "in", "loop", "match", "return", "let", "mut", "break"}
    return tuple(t if t in kept or not re.match(r"[\w']", t) else ("0" if t[0].isdigit() or "'" in t else "x") for t in tokens)


def point_2():
    groups = collections.defaultdict(list)
    for path, line, name, _, body in functions():
        tokens = shape(body)
        if len(tokens) >= 20:
            groups[tokens].append((path, line, name))
    for members in groups.values():
        if len(members) > 1:
            for path, line, name in members:
                yield path, line, "%s, one of %d alike: %s" % (name, len(members), " ".join(m[2] for m in members))


def point_3():
    for path, lines in sources():
        for i, text in enumerate(lines):
            head = re.match(r"(\s*)('\w+: )?(while .*|loop) \{$", text)
            if not head or text.lstrip().startswith("while let"):
                continue
            end = i + 1
            while not re.match(head.group(1) + r"\}", lines[end]):
                end += 1
            step = next((re.search(r"\b(\w+) [+-]= ", line) for line in lines[i + 1:end] if re.search(r"\b(\w+) [+-]= ", line)), None)
            if step:
                yield path, i + 1, "%s .. %s" % (text.strip()[:-2], step.group(0).strip())


BY_HAND = r"(same\w*|equal\w*|least|smaller|most|more|copy|wipe|wide\w*|low|show\w*|form(_of)?|kind_\w+|print\w*|digit\w*|decimal\w*|age|\w+_of_number)"


def point_4():
    for path, line, name, _, _ in functions():
        if re.fullmatch(BY_HAND, name):
            yield path, line, "fn " + name


def params(head):
    text = " ".join(head)
    inside = re.search(r"fn \w+(?:<[^(]*>)?\((.*?)\)\s*(->|requires|ensures|\{|$)", text)
    return [p.strip() for p in inside.group(1).split(",") if ":" in p] if inside else []


def point_5():
    facts = collections.defaultdict(list)
    places = collections.defaultdict(list)
    together = collections.defaultdict(list)
    for path, line, name, head, _ in functions():
        for clause in re.findall(r"(?:requires|ensures)[^{]*\{(.*)\}", "\n".join(head)):
            for fact in re.split(r" × ", clause):
                fact = fact.strip().strip("()").strip()
                if len(fact) > 8 and "result" not in fact and fact.count("(") == fact.count(")"):
                    facts[fact].append((path, line, name))
        for param in params(head):
            places[path.split("/")[0], param].append((path, line, name))
    for (crate, param), where in places.items():
        together[crate, tuple(where)].append(param)
    for fact, where in sorted(facts.items(), key=lambda e: -len(e[1])):
        if len(where) >= 3:
            yield where[0][0], where[0][1], "in %d contracts: %s" % (len(where), fact)
    for (crate, where), names in sorted(together.items()):
        if len(where) >= 3 and len(names) >= 2:
            yield where[0][0], where[0][1], "always together, in %d functions: %s" % (len(where), ", ".join(names))


def point_6():
    for path, lines in sources():
        for i, text in enumerate(lines):
            beside = " ".join(lines[i - 1:i] + lines[i + 1:i + 2])
            if re.match(r"\s+(pub )?\w+: \[[\w<>]+; [\w +*:]+\],$", text) and re.search(r"\b(count|len|from|end|n|length|size): (usize|u32)", beside):
                yield path, i + 1, "a field with a length beside it: " + text.strip()
    for path, line, name, head, _ in functions():
        if re.search(r": (&mut |&)?\[[\w]+; [\w]+\], (count|n|len|from|end|length): usize", " ".join(head)):
            yield path, line, "a parameter with a length beside it: fn " + name
        arrays = [p for p in params(head) if re.search(r": &(mut )?\[u\w+; \w+\]", p)]
        if len(arrays) > 1:
            yield path, line, "parallel arrays: fn " + name


def point_7():
    for path, lines in sources():
        for i, text in enumerate(lines):
            if re.search(r"match (which|ending|step|kind) \{", text):
                yield path, i + 1, text.strip()


def point_8():
    for path in sorted(glob.glob(TOP + "/crates/*/proofs/**/Answers.antt", recursive=True)):
        with open(path, encoding="utf-8") as file:
            answers = re.findall(r"^\S+( \w+)* = search \S.*$", file.read(), re.M)
        if answers:
            yield os.path.relpath(path, TOP + "/crates"), 1, "%d answers that are a search" % len(answers)


POINTS = [point_1, point_2, point_3, point_4, point_5, point_6, point_7, point_8]


def main():
    asked = [int(a) for a in sys.argv[1:] if a.isdigit()] or range(1, 9)
    for number in asked:
        found = list(POINTS[number - 1]())
        if "--counts" not in sys.argv:
            for path, line, what in found:
                print("%d %s:%d %s" % (number, path, line, what))
        print("point %d: %d" % (number, len(found)))


main()
