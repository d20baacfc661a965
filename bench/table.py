#!/usr/bin/env python3
"""table.py RESULTS SVG: prints the table of the benchmark from the driver's times and callgrind's counts, and draws the growth curves."""
import glob
import re
import sys

REPEATS = 4


def read(folder):
    """Work items in order, and for each who did it the instructions and the nanoseconds of one call."""
    counts, times, order = {}, {}, []
    for path in glob.glob(folder + "/count.*"):
        text = open(path).read()
        label = re.search(r"Client Request: (.*)", text)
        if label:
            # the sum over functions, "totals", keeps some counts of the calls before the counters were set to zero
            counts[label[1].strip()] = int(re.search(r"summary: (\d+)", text)[1]) / REPEATS
    for line in open(folder + "/times"):
        work, who, ns = line.rstrip("\n").split("|")
        times[work + "|" + who] = float(ns)
        if work not in order:
            order.append(work)
    empty = counts["nothing|ours"], times["nothing|ours"]
    work = {w: {} for w in order if w != "nothing"}
    for label, ns in times.items():
        w, who = label.split("|")
        if w in work:
            work[w][who] = (max(0, counts[label] - empty[0]), max(0, ns - empty[1]))
    for by in work.values():
        # a decision is what the call costs beyond its test of the image
        if "decide" in by:
            (all_count, all_ns), (count, ns) = by.pop("decide"), by.pop("test")
            # a difference of times says nothing where it is small beside them
            by["ours"] = all_count - count, all_ns - ns if all_ns > 1.1 * ns else None
        # a tick that ends waits is what the call costs beyond putting them back
        if "ends" in by:
            by["ours"] = tuple(both - put for both, put in zip(by.pop("ends"), by.pop("put back")))
    for w, by in work.items():
        # a batch is shown by message
        messages = re.match(r"batch of (\d+), ", w)
        if messages:
            by["ours"] = tuple(x / int(messages[1]) for x in by["ours"])
    return work


def goal(work, items):
    """The goal of a work item among all items, in words, and its test on instructions (k = 0) or nanoseconds (k = 1)."""
    def share(peer, n):
        return f"≤ 1/{n} of {peer}", lambda by, k: n * by["ours"][k] <= by[peer][k]

    def below(n):
        return f"< {n:,}", lambda by, k: k == 0 and by["ours"][0] < n

    def at_most(n):
        return f"≤ {n:,}", lambda by, k: k == 0 and by["ours"][0] <= n

    if work == "head, 176-byte call":
        return share("libdbus", 6)
    if work == "head, 2,048 bytes":
        return share("libdbus", 4)
    if work.startswith("head, 2,048 bytes, "):
        return below(150000)
    if work.endswith(": unknown field, body"):
        return share("libdbus", 3)
    ascii_bytes = re.fullmatch(r"text of ([\d,]+) ASCII bytes", work)
    if ascii_bytes:
        return "≤ 4 a byte", lambda by, k: k == 0 and by["ours"][0] <= 4 * int(ascii_bytes[1].replace(",", ""))
    if work == "memory test, 16 peers with the dearest heads":
        return below(2500000)
    if re.search(r" of 30 bytes$", work):
        return share("libdbus", 2)
    if re.search(r" of 255 bytes$", work):
        return "≤ 2/5 of libdbus", lambda by, k: 5 * by["ours"][k] <= 2 * by["libdbus"][k]
    if work.startswith("signature"):
        return share("GLib", 2)
    if work == "memory test, 16 idle peers":
        return "≤ 2 memcmp", lambda by, k: by["ours"][k] <= 2 * by["memcmp"][k]
    if work.startswith("tick, 256 waits, "):
        test = items["memory test, 16 peers, 256 waits"]["ours"]
        return "≤ 2 memory tests", lambda by, k: by["ours"][k] <= 2 * test[k]
    if work.startswith("image test, 512"):
        return below(150000)
    if work.startswith("retire, 256 own rules, 256 names"):
        return at_most(40000000)
    if work.startswith("decision, 512"):
        return below(500) if "mandatory" in work else below(80000)
    if work.startswith("piece, 176-byte call, 16 rules"):
        return below(25000)
    if work == "batch of 32, 176-byte call, 16 rules, 16 peers, each":
        return at_most(5500)
    if work == "batch of 32, 176-byte call, 512 rules, 16 peers, each":
        return at_most(70000)
    return None


def reached(g, by):
    if not g:
        return ""
    if g[1](by, 0):
        return "yes"
    return "in time only" if g[1](by, 1) else "NO"


def cell(by, who):
    if who not in by:
        return ""
    count, ns = by[who]
    return f"{count:,.0f} (-)" if ns is None else f"{count:,.0f} ({ns:,.0f})"


def ratio(by, who):
    if who not in by or not by[who][0]:
        return ""
    return f"{by['ours'][0] / by[who][0]:.3f}"


def table(work):
    rows = [["work", "ours", "libdbus", "GLib", "memcpy, memcmp", "ours / libdbus", "ours / GLib", "ours / limit", "goal", "reached"]]
    for w, by in work.items():
        if w.startswith("growth:"):
            continue
        limit = "memcmp" if "memcmp" in by else "memcpy"
        g = goal(w, work)
        rows.append([w, cell(by, "ours"), cell(by, "libdbus"), cell(by, "GLib"), cell(by, limit), ratio(by, "libdbus"), ratio(by, "GLib"),
                     ratio(by, limit), g[0] if g else "", reached(g, by)])
    wide = [max(len(r[i]) for r in rows) for i in range(len(rows[0]))]
    line = lambda r: "| " + " | ".join(c.ljust(n) if i in (0, 8, 9) else c.rjust(n) for i, (c, n) in enumerate(zip(r, wide))) + " |"
    print(line(rows[0]))
    print("|" + "|".join("-" * (n + 2) if i in (0, 8, 9) else "-" * (n + 1) + ":" for i, n in enumerate(wide)) + "|")
    for r in rows[1:]:
        print(line(r))


def curves(work):
    """Panels of the plot: the axis, and for each curve its points."""
    panels = {}
    for w, by in work.items():
        if w.startswith("growth:"):
            _, curve, axis, x = w.split(":")
            panels.setdefault(axis, {}).setdefault(curve, []).append((int(x), by["ours"][0]))
    return panels


TITLES = {"rules": "one call, by transaction rules", "length": "one piece with a whole message, by its bytes",
          "pieces": "one message, by the pieces it comes in"}
COLORS = ["#1b6ca8", "#c0392b", "#2e8b57"]


def panel(left, axis, lines):
    wide, high, top = 250, 190, 40
    xs = max(x for points in lines.values() for x, _ in points)
    ys = max(y for points in lines.values() for _, y in points)
    step = 10 ** (len(str(int(ys))) - 1)
    ys = -(-ys // step) * step
    at = lambda x, y: f"{left + x / xs * wide:.1f},{top + high - y / ys * high:.1f}"
    out = [f'<text x="{left}" y="20" font-weight="bold">{TITLES[axis]}</text>',
           f'<path d="M{at(0, ys)} L{at(0, 0)} L{at(xs, 0)}" fill="none" stroke="#555"/>']
    for k in range(5):
        x, y = xs * k / 4, ys * k / 4
        out.append(f'<text x="{left + x / xs * wide:.1f}" y="{top + high + 16}" text-anchor="middle">{x:,.0f}</text>')
        out.append(f'<text x="{left - 5}" y="{top + high - y / ys * high + 4:.1f}" text-anchor="end">{y:,.0f}</text>')
    out.append(f'<text x="{left + wide / 2}" y="{top + high + 34}" text-anchor="middle">{axis}</text>')
    for n, (name, points) in enumerate(lines.items()):
        color = COLORS[n % len(COLORS)]
        out.append(f'<polyline points="{" ".join(at(x, y) for x, y in points)}" fill="none" stroke="{color}" stroke-width="2"/>')
        out.append(f'<text x="{left}" y="{top + high + 54 + 16 * n}" fill="{color}">{name}</text>')
    return out


def draw(panels, path):
    out = ['<svg xmlns="http://www.w3.org/2000/svg" width="1010" height="340" font-family="sans-serif" font-size="12">',
           '<rect width="1010" height="340" fill="#fff"/>']
    for n, (axis, lines) in enumerate(panels.items()):
        out += panel(70 + 330 * n, axis, lines)
    out.append('<text x="70" y="334" fill="#555">Instructions, counted by callgrind.</text></svg>')
    open(path, "w").write("\n".join(out) + "\n")


if __name__ == "__main__":
    found = read(sys.argv[1])
    table(found)
    draw(curves(found), sys.argv[2])
