#!/usr/bin/env python3
"""worst.py FOLDER ROUNDS: searches for the head of at most 2,048 bytes that costs the most instructions. FOLDER has the counter and gets what it writes.

A value is as in values.py. A head is a tuple of values, one for each unknown field."""
import collections
import glob
import os
import random
import re
import subprocess
import sys

from values import ALL, NUMBERS, put, type_of

LIMIT, ISLANDS = 2048, 12


# ---- heads

def with_field(out, value, room):
    """The head with one field more, or None where there is no room."""
    longer = bytearray(out)
    longer += bytes(-len(longer) % 8) + b"\x0b"
    put(longer, ("v", value), room)
    return longer if len(longer) <= room else None


def fills(value):
    return value[0] == "a" and value[1] == ALL or value[0] in "({" and any(map(fills, value[1])) or value[0] == "v" and fills(value[1])


def head_of(fields):
    """The head of type 5, which needs no other field, with these; each has its share of the room. What has no array to fill stands there often. In
    the room that is left stands a chain of variants."""
    out = bytearray(16)
    for k, value in enumerate(fields):
        room = 16 + (LIMIT - 16) * (k + 1) // len(fields)
        longer = with_field(out, value, room)
        if longer is None:
            return None
        while longer:
            out = longer
            longer = None if fills(value) else with_field(out, value, room)
    left = LIMIT - (len(out) + 7) // 8 * 8
    if left >= 8:
        out = with_field(out, chain(min((left - 5) // 3, 62), Y), LIMIT) or out
    out[0:16] = b"l\x05\0\x01" + bytes(4) + b"\x01\0\0\0" + (len(out) - 16).to_bytes(4, "little")
    return bytes(out + bytes(-len(out) % 8))


# ---- the shapes to begin with

Y, B, G, S = ("y", 1), ("b", 1), ("g", b""), ("s", b"")
V = ("v", Y)


def row(*values):
    return "(", values


def parens(n, value):
    for _ in range(n):
        value = row(value)
    return value


def chain(n, value):
    for _ in range(n):
        value = "v", value
    return value


def arrays(n, value):
    for _ in range(n):
        value = "a", 1, value
    return value


def none_of(value):
    return "a", 0, value


def entries(key, value):
    return "a", 1, ("{", (key, value))


# each leaves room for a few letters in front of it and behind it
LONG = [row(*[Y] * 240), row(*[parens(19, Y)] * 6), row(*[none_of(Y)] * 120), row(*[arrays(20, Y)] * 11), row(*[entries(Y, Y)] * 48),
        row(*[entries(Y, entries(Y, Y))] * 26), row(*[row(Y)] * 80), row(*[entries(Y, row(Y))] * 34)]
TEXTS = {"a": b"a", "ASCII of 7": b"abcdefg", "ASCII of 15": b"a" * 15, "ASCII of 16": b"a" * 16, "ASCII of 31": b"a" * 31, "ASCII of 255": b"a" * 255,
         "2-byte characters": "é".encode() * 100, "3-byte characters": "€".encode() * 80, "4-byte characters": "😀".encode() * 60,
         "one 2-byte character": "é".encode(), "one 3-byte character": "€".encode(), "one 4-byte character": "😀".encode(),
         "ASCII, 4-byte characters between": ("aaaaaaaaaaaaaaa" + "😀").encode() * 12}
SIGNATURES = [b"", b"y", b"yy", b"yyyyyyy", b"y" * 255, b"v", b"ay", b"(y)", b"((y))", b"a{yy}", b"a" * 31 + b"y", (b"a" * 32 + b"y") * 7,
              b"(" * 32 + b"y" + b")" * 32, (b"(" * 32 + b"y" + b")" * 32) * 3, b"a{yy}" * 51, b"a{ya{ya{ya{ya{ya{yy}}}}}}" * 9, b"(y)" * 85,
              b"a{y" * 32 + b"y" + b"}" * 32, b"a{y(" * 20 + b"y" + b")}" * 20]


def elements():
    """Values that an array may have many of, with their names."""
    for letter in NUMBERS:
        yield letter, (letter, 1)
    for value in (V, ("v", B), ("v", G), ("v", S), ("v", ("o", b"/")), ("v", ("x", 1)), ("v", none_of(Y)), ("v", none_of(G)), ("v", ("a", 1, V))):
        yield "v of " + type_of(value[1]), value
    for inner in ([Y], [Y, Y], [Y] * 3, [Y] * 7, [G], [G, Y], [Y, G], [V], [V, Y], [Y, V], [B], [B, Y], [none_of(Y)], [none_of(Y), Y], [S]):
        yield "v of " + type_of(row(*inner)), ("v", row(*inner))
    for value in (none_of(row(Y)), none_of(none_of(Y)), entries(Y, Y), ("a", 0, ("{", (Y, Y))), ("a", 0, ("{", (Y, V)))):
        yield f"v of {type_of(value)}, {value[1]}", ("v", value)
    for n in (2, 3, 4, 5, 8, 16, 31):
        yield f"v of {n} parentheses round y", ("v", parens(n, Y))
    for long in LONG:
        yield f"v of no {type_of(long)[:20]}..", ("v", none_of(long))
        yield f"no {type_of(long)[:20]}.. and ay", row(none_of(long), none_of(Y), none_of(Y))
    for n in (1, 2, 3, 5, 10, 20, 40, 60):
        yield f"chain of {n} v and y", chain(n, V)
        yield f"chain of {n} v and g", chain(n, ("v", G))
    # no more than 64 may be open
    for letters, most, value in (("(v)", 30, row), ("(yv)", 30, lambda v: row(Y, v)), ("(vy)", 30, lambda v: row(v, Y)), ("av", 30, lambda v: ("a", 1, v)),
                                 ("((v))", 20, lambda v: parens(2, v)), ("a{yv}", 20, lambda v: entries(Y, v))):
        for n in (1, 2, 4, 10, most):
            v = V
            for _ in range(n):
                v = "v", value(v)
            yield f"chain of {n} v of {letters} and y", v
    for n in (1, 2, 3, 5, 8, 16, 24, 30, 31):
        for value in (Y, G, V, B, none_of(Y), none_of(row(Y)), ("v", row(Y)), ("v", parens(2, Y)), ("v", row(Y, Y))):
            yield f"{n} parentheses round {type_of(value)} {value[1][0] if value[0] == 'v' else ''}", parens(n, value)
    # eight bytes each, so that nothing is lost to the padding in front of the next
    for n in (1, 2, 8, 16, 31, 32):
        for inner in ([V, V], [chain(2, G)], [V, G, G], [G] * 4, [("v", G), Y, G], [chain(2, Y), Y], [V] + [Y] * 4, [Y] * 8, [V, none_of(Y)], [V, B],
                      [V, none_of(G)]):
            yield f"{n} parentheses round {brief(inner)}", parens(n - 1, row(*inner))
    for n in (2, 3, 4, 8, 16, 32, 64, 100, 250):
        for value in (Y, G, V, B, S, ("n", 1), ("x", 1), none_of(Y), none_of(none_of(Y)), ("v", row(Y)), row(Y), row(G)):
            if n * len(type_of(value)) <= 250:
                yield f"row of {n} {type_of(value)} {type_of(value[1]) if value[0] == 'v' else ''}", row(*[value] * n)
    stairs = row(Y)
    for _ in range(30):
        stairs = row(Y, stairs)
    yield "stairs", stairs
    for n in (2, 4, 7):
        yield f"{n} times 15 parentheses and y", row(*[parens(15, Y), Y] * n)
        yield f"{n} times 15 parentheses and g", row(*[parens(15, G), G] * n)
    for s in SIGNATURES:
        yield f"g {s[:20].decode()} of {len(s)}", ("g", s)
    for name, text in TEXTS.items():
        yield "s " + name, ("s", text)
    yield "s empty", S
    for path in (b"/", b"/a", b"/a/b", b"/" + b"a" * 250, b"/a" * 120):
        yield f"o of {len(path)}", ("o", path)
    for n in (1, 2, 5, 10, 20, 29, 30):
        yield f"{n} arrays round y", arrays(n, Y)
        yield f"{n} arrays round none", arrays(n - 1, none_of(Y))
        yield f"{n} arrays round g", arrays(n, G)
    yield "{yy}", ("{", (Y, Y))
    yield "{yv}", ("{", (Y, V))
    yield "{yg}", ("{", (Y, G))
    yield "{gg}", ("{", (G, G))
    yield "{y(y)}", ("{", (Y, row(Y)))
    yield "{ya{yy}}", ("{", (Y, entries(Y, Y)))
    yield "(vgyb)", row(V, G, Y, B)
    yield "(gv) of (y)", row(G, ("v", row(Y)))


def shapes():
    """Heads with their names: arrays, many fields, and mixtures."""
    found = dict(elements())
    for name, value in found.items():
        yield "array of " + name, (("a", ALL, value),)
        if value[0] != "{":
            yield "fields of " + name, (value,)
    yield "string, ASCII", (("s", b"a" * 2020),)
    yield "string, 3-byte characters", (("s", "€".encode() * 670),)
    variants = ["v of y", "v of g", "v of (y)", "v of ((y))", "v of (yy)", "v of (g)", "chain of 10 v and y", "v of ay"]
    variants = [(name, found[name] if name in found else ("v", parens(2, Y))) for name in variants]
    for i, (one, a) in enumerate(variants):
        for two, b in variants[i + 1:]:
            yield f"array of {one} and {two} in turns", (("a", ALL, a, b),)
            yield f"two arrays: {one}; {two}", (("a", ALL, a), ("a", ALL, b))
            yield f"array of struct: {one}, {two}", (("a", ALL, row(a, b)),)


# ---- changes

def small(rng):
    """A value to put somewhere."""
    pick = rng.randrange(12)
    if pick < 5:
        return rng.choice([Y, Y, G, V, B, S, ("o", b"/"), ("n", 1), ("x", 1)])
    if pick < 6:
        return "g", rng.choice(SIGNATURES)
    if pick < 7:
        return "s", rng.choice(list(TEXTS.values()))
    if pick < 9:
        return "v", small(rng)
    if pick < 11:
        return row(*[small(rng) for _ in range(rng.randint(1, 3))])
    return "a", rng.randint(0, 2), small(rng)


def wrapped(rng, value):
    pick = rng.randrange(7)
    return ("v", value) if pick < 2 else parens(rng.choice([1, 1, 2, 5]), value) if pick < 4 else ("v", parens(rng.randint(1, 2), value)) if pick < 5 else \
        ("a", rng.randint(0, 2), value) if pick < 6 else row(value, small(rng))


def bare(rng, value):
    """One of the values inside."""
    if value[0] == "a":
        return value[2]
    return rng.choice(value[1]) if value[0] in "({" else value[1] if value[0] == "v" else small(rng)


def changed_row(rng, value):
    inner = list(value[1])
    pick = rng.randrange(4)
    at = rng.randrange(len(inner))
    if pick == 0:
        inner.insert(at, small(rng))
    elif pick == 1:
        inner[at:at + 1] = [inner[at]] * rng.choice([2, 2, 3, 8])
    elif len(inner) > 1:
        del inner[at]
    return row(*inner)


def changed_here(rng, value):
    pick = rng.randrange(6)
    if pick == 0:
        return small(rng)
    if pick == 1:
        return wrapped(rng, value)
    if pick == 2:
        return bare(rng, value)
    if value[0] == "(":
        return changed_row(rng, value)
    if value[0] == "a" and value[1] != ALL:
        return ("a", rng.randint(0, 4)) + value[2:]
    if value[0] == "a" and value[2][0] == "v":
        return value + (("v", small(rng)),) if rng.randrange(2) else value[:2] + value[3:] if len(value) > 3 else value
    return small(rng)


def inside(value):
    return len(value[1]) if value[0] in "({" else 1 if value[0] == "v" else len(value) - 2 if value[0] == "a" else 0


def changed(rng, value):
    """A change somewhere in a value."""
    n = inside(value)
    if n == 0 or rng.random() < 0.25:
        return changed_here(rng, value)
    at = rng.randrange(n)
    if value[0] == "v":
        return "v", changed(rng, value[1])
    if value[0] == "a":
        new = changed(rng, value[2 + at])
        rest = value[2:2 + at] + (new,) + value[3 + at:]
        return value[:2] + (rest if len({type_of(v) for v in rest}) == 1 else (new,))
    inner = list(value[1])
    inner[at] = changed(rng, inner[at])
    return value[0], tuple(inner)


def mutant(rng, pool):
    fields = list(rng.choice(pool))
    pick = rng.random()
    if pick < 0.06:
        fields.append(rng.choice(rng.choice(pool)))
    elif pick < 0.1 and len(fields) > 1:
        fields.pop(rng.randrange(len(fields)))
    for _ in range(rng.choice([1, 1, 1, 2, 3])):
        at = rng.randrange(len(fields))
        fields[at] = changed(rng, fields[at])
    return tuple(fields)


def legal(value):
    """A dict entry stands in an array only, its key is basic, and no signature is too long."""
    if value[0] == "v" and (len(type_of(value[1])) > 255 or value[1][0] == "{"):
        return False
    inner = value[1] if value[0] in "({" else value[1:] if value[0] == "v" else value[2:] if value[0] == "a" else ()
    if value[0] == "(" and any(v[0] == "{" for v in inner) or value[0] == "{" and (len(inner) != 2 or inner[0][0] in "a({v" or inner[1][0] == "{"):
        return False
    return (value[0] == "a" or all(v[0] != "{" for v in inner)) and all(map(legal, inner))


# ---- counting

def count(folder, heads):
    """The answer and the instructions of each head."""
    for path in glob.glob(folder + "/cost*"):
        os.remove(path)
    data = b"".join(len(h).to_bytes(2, "little") + h for h in heads)
    with open(folder + "/valgrind.log", "w") as log:
        subprocess.run(["valgrind", "--tool=callgrind", f"--callgrind-out-file={folder}/cost", folder + "/counter"], input=data, stderr=log, check=True)
    found = {}
    for path in glob.glob(folder + "/cost.*"):
        text = open(path).read()
        label = re.search(r"Client Request: (\d+) (\d+)", text)
        if label:
            found[int(label[1])] = int(label[2]), int(re.search(r"totals: (\d+)", text)[1])
    return [found[k] for k in range(len(heads))]


Head = collections.namedtuple("Head", "cost size island name fields bytes")


class Search:
    """The heads counted so far. Each belongs to an island, and is changed there only: so one shape that is dear does not crowd out the others."""
    def __init__(self, folder):
        self.folder, self.seen, self.heads = folder, set(), []

    def take(self, named, good):
        """Counts the new heads among those; where they are known to be good, another answer than 0 is a fault of this program or of the product."""
        new = []
        for island, name, fields in named:
            if not all(f[0] != "{" and legal(("v", f)) for f in fields):
                if good:
                    sys.exit(f"worst: {name} is no value")
                continue
            head = head_of(fields)
            if head and head not in self.seen:
                self.seen.add(head)
                new.append((island, name, fields, head))
        for (island, name, fields, head), (answer, cost) in zip(new, count(self.folder, [n[-1] for n in new])):
            if answer == 0:
                self.heads.append(Head(cost, len(head), island, name, fields, head))
            elif good:
                sys.exit(f"worst: {name} is answered {answer}")
        self.heads.sort(key=lambda h: (-h.cost, h.size, h.name))

    def dearest(self, island, n):
        return [h.fields for h in self.heads if island in (h.island, None)][:n]


def brief(fields):
    """What a head has, in a line."""
    def of(v):
        if v[0] == "a":
            return ("all " if v[1] == ALL else f"{v[1]} ") + " or ".join(map(of, v[2:]))
        return v[0] + " ".join(map(of, v[1])) + ")}"["({".index(v[0])] if v[0] in "({" else "v:" + of(v[1]) if v[0] == "v" else v[0] + (
            f"'{v[1][:12].decode(errors='replace')}'{len(v[1])}" if v[0] in "sog" and v[1] else "")
    return "; ".join(map(of, fields))


def main(folder, rounds):
    rng = random.Random(6)
    search = Search(folder)
    search.take(((0, name, fields) for name, fields in shapes()), True)
    search.heads = [h._replace(island=k % ISLANDS) for k, h in enumerate(search.heads)]
    for n in range(rounds):
        # in the last third all islands are one
        islands = range(ISLANDS) if 3 * n < 2 * rounds else [None]
        pools = {i: search.dearest(i, 12 if i is not None else 60) for i in islands}
        search.take([(i, f"change {n + 1}", mutant(rng, pools[i])) for i in islands for _ in range(240 // len(islands))], False)
        print(f"round {n + 1}: {search.heads[0].cost:,}", file=sys.stderr)
    print(f"{len(search.heads):,} good heads counted. The dearest:\n\n| instructions | bytes | a byte | found as | what it has |\n|-:|-:|-:|-|-|")
    for h in search.heads[:20]:
        what = brief(h.fields)
        print(f"| {h.cost:,} | {h.size:,} | {h.cost / h.size:.1f} | {h.name} | {what if len(what) < 100 else what[:97] + '...'} |")
    print("\nThe dearest shapes before any change:\n\n| instructions | bytes | a byte | shape |\n|-:|-:|-:|-|")
    for h in [h for h in search.heads if not h.name.startswith("change")][:20]:
        print(f"| {h.cost:,} | {h.size:,} | {h.cost / h.size:.1f} | {h.name} |")
    open(folder + "/head", "wb").write(search.heads[0].bytes)


if __name__ == "__main__":
    main(sys.argv[1], int(sys.argv[2]))
