#!/usr/bin/env python3
"""Keeps two descriptions of the crates true to the sources: the picture docs/map.svg, and the column "uses" of crates/README.md.

A crate uses another one directly where its code names it (`use mem_banks::..`), and cites it where its clauses or its
specs/ name definitions of it (`Rattle.mem_banks...`). Lemmas in proofs/ may name further ones. crates.txt has all of them,
and those that the toolchain needs besides.

The picture has a column for each length of the longest chain below a crate, and a colour for each heading of crates.txt.
Lines lead left, from a crate to each one that it uses, cites or names in a lemma. A line is left out where a longer way
leads to the same crate: all 258 of them would be a tangle.

usage, at the top: .ci/map.py [--check]
With --check it writes nothing, and fails where the picture or the column is not what the sources say.
"""
import glob
import re
import sys

PICTURE, TABLES = "docs/map.svg", "crates/README.md"
COLOURS = [("#eeeeee", "#777777"), ("#fde8d0", "#b8670f"), ("#fff6c9", "#9a8400"), ("#dfeefb", "#1f6fb2"), ("#e2f4e2", "#2f7d32"),
           ("#dff3ef", "#0f766e"), ("#efe6f8", "#6b3fa0"), ("#fbe3ee", "#b0306a"), ("#f3d9f0", "#86257a"), ("#fbe0dc", "#b3341f"),
           ("#e6e6fa", "#4b4bb0"), ("#f3efe3", "#7a6a3a"), ("#d9e6e6", "#35585c"), ("#f8f8f8", "#aaaaaa")]
# the picture's width, and a box's; from a column to the next; the heights of a box, of the room between two, and of a line
WIDTH, BOX, STEP, HIGH, GAP, THREAD = 1320, 116, 168, 20, 10, 9
EXPLAINED = ["Column: the length of the longest chain up to a crate.", "Lines lead left, to what a crate uses or cites",
             "directly. A line is left out where a longer way", "leads to the same crate."]
# heights are whole numbers of this part of a unit, so that every Python gives the same picture
FINE = 64


# ## what the sources say

def read(path):
    """The headings of crates.txt, each with its crates; and what each crate is given."""
    bands, given, title = [], {}, ""
    for line in open(path, encoding="utf-8"):
        if line.startswith("#"):
            title = line[1:].strip()
        elif ":" in line:
            name, rest = line.split(":")
            if not bands or bands[-1][0] != title:
                bands.append((title, []))
            bands[-1][1].append(name)
            given[name] = rest.split()
    return bands, given


def named(crate, folder, pattern):
    """What a pattern finds in a crate's files, comments aside."""
    found = set()
    for path in glob.glob(f"crates/{crate}/{folder}/**/*", recursive=True):
        if path.endswith((".rt", ".antt")):
            for line in open(path, encoding="utf-8"):
                found.update(re.findall(pattern, re.split(r"//|-- ", line)[0]))
    return found


def direct(given):
    """Of each crate: what its code uses, what its clauses and definitions cite besides, and what its lemmas name besides."""
    code, cited, ways = r"(?<![.\w])([a-z_]+)::", r"\bRattle\.([a-z_]+)\.", {}
    for crate, rest in given.items():
        uses = named(crate, "src", code) & set(rest)
        cites = (named(crate, "src", cited) | named(crate, "specs", cited)) & set(rest) - uses
        ways[crate] = uses, cites, named(crate, "proofs", cited) & set(rest) - uses - cites
    return ways


# ## the column of crates/README.md

def cell(given, crate, ways):
    uses, cites = (", ".join(it for it in given[crate] if it in some) for some in ways[crate][:2])
    return uses + ("; " if uses and cites else "") + ("cites " + cites if cites else "")


def with_column(text, given, ways):
    def row(found):
        name = found.group(1)
        return f"| `{name}` | {cell(given, name, ways)} |".replace("|  |", "| |") if name in given else found.group(0)
    return re.sub(r"^\| `(\w+)` \|[^|]*\|", row, text, flags=re.MULTILINE)


# ## the picture

def depth(given, name):
    return 1 + max((depth(given, it) for it in given[name] if it in given), default=0)


def below(lines, crate):
    """All that is reached from a crate."""
    found = set(lines[crate])
    for it in lines[crate]:
        found |= below(lines, it)
    return found


def without_longer_ways(lines):
    reached = {crate: below(lines, crate) for crate in lines}
    return {crate: sorted(it for it in rest if not any(it in reached[other] for other in rest)) for crate, rest in lines.items()}


class Layout:
    """Each crate in the column of its depth, in an order in which few lines cross. A node is a crate and a column: its box, or a
    thread where lines to it pass through a column farther on, so that no line runs behind a box."""

    def __init__(self, names, depths, lines):
        self.depths = depths
        farthest = {it: max([depths[name] for name in names if it in lines[name]], default=0) for it in names}
        self.columns = {k: [(name, k) for name in names if depths[name] <= k < max(farthest[name], depths[name] + 1)]
                        for k in range(1, max(depths.values()) + 1)}
        self.links = [((name, k), (name, k + 1)) for name in names for k in range(depths[name], farthest[name] - 1)]
        self.links += [((it, depths[name] - 1), (name, depths[name])) for name in names for it in lines[name]]
        self.left, self.right = {}, {}
        for a, b in self.links:
            self.right.setdefault(a, []).append(b)
            self.left.setdefault(b, []).append(a)
        self.y = {}
        for nodes in self.columns.values():
            self.settle(nodes, {node: 0 for node in nodes})
        for sweep in range(60):
            for k in sorted(self.columns, reverse=sweep % 2 == 1):
                self.order(k, sweep)

    def is_box(self, node):
        return self.depths[node[0]] == node[1]

    def room(self, node):
        return FINE * (HIGH + GAP if self.is_box(node) else THREAD)

    def order(self, k, sweep):
        """By the middles of their neighbours: of those on the one side, then on the other, at the end on both."""
        def middle(node):
            sides = [self.left.get(node, []), self.right.get(node, [])]
            near = sides[0] + sides[1] if sweep >= 40 else sides[sweep % 2] or sides[1 - sweep % 2]
            return sum(self.y[it] for it in near) // len(near) if near else self.y[node]
        wanted = {node: middle(node) for node in self.columns[k]}
        self.columns[k].sort(key=lambda node: (wanted[node], node))
        self.settle(self.columns[k], wanted)

    def settle(self, nodes, wanted):
        """As near to where each wants to be as their order and the room of each allow."""
        groups = []
        for node in nodes:
            groups.append(([node], wanted[node] - self.room(node) // 2))
            while len(groups) > 1 and groups[-2][1] + sum(map(self.room, groups[-2][0])) > groups[-1][1]:
                joined, tops, y = groups[-2][0] + groups[-1][0], 0, 0
                for it in joined:
                    tops += wanted[it] - self.room(it) // 2 - y
                    y += self.room(it)
                groups[-2:] = [(joined, tops // len(joined))]
        for joined, y in groups:
            for it in joined:
                self.y[it] = y + self.room(it) // 2
                y += self.room(it)


def draw(bands, given, lines):
    names = [name for _, crates in bands for name in crates]
    lay = Layout(names, {name: depth(given, name) for name in given}, lines)
    top = min(lay.y[it] - lay.room(it) // 2 for it in lay.y)
    colour = {name: COLOURS[k % len(COLOURS)] for k, (_, crates) in enumerate(bands) for name in crates}

    def x(column):
        return 12 + (column - 1) * STEP

    def y(node):
        return 26 + (lay.y[node] - top) // FINE

    heads = [f'<text x="{x(k) + BOX // 2}" y="16" class="d">{k}</text>' for k in lay.columns]
    paths, boxes = [], []
    for a, b in lay.links:
        start, end = x(a[1]) + BOX, x(b[1])
        through = "" if lay.is_box(a) else f"M{x(a[1])},{y(a)}H{start}"
        curve = f"M{start},{y(a)}C{start + 20},{y(a)} {end - 20},{y(b)} {end},{y(b)}"
        paths.append(f'<path class="a" stroke="{colour[a[0]][1]}" d="{through}{curve}"/>')
    for name in names:
        left, up, (fill, edge) = x(lay.depths[name]), y((name, lay.depths[name])) - HIGH // 2, colour[name]
        boxes.append(f'<rect x="{left}" y="{up}" width="{BOX}" height="{HIGH}" rx="4" fill="{fill}" stroke="{edge}"/>')
        boxes.append(f'<text x="{left + 6}" y="{up + 14}" class="n">{name}</text>')
    low = max(y(it) for it in lay.y) + 40
    half = (len(bands) + 1) // 2
    for k, (title, _) in enumerate(bands):
        left, up, (fill, edge) = 12 + k // half * 500, low + k % half * 20, COLOURS[k % len(COLOURS)]
        boxes.append(f'<rect x="{left}" y="{up}" width="22" height="13" rx="3" fill="{fill}" stroke="{edge}"/>')
        boxes.append(f'<text x="{left + 28}" y="{up + 11}" class="t">{title}</text>')
    for k, text in enumerate(EXPLAINED):
        boxes.append(f'<text x="1012" y="{low + 11 + 20 * k}" class="t">{text}</text>')
    tall = low + half * 20 + 6
    style = ".t{font:11px sans-serif;fill:#333}.n{font:11px monospace}.d{font:11px sans-serif;fill:#889;text-anchor:middle}.a{fill:none}"
    return (f'<svg xmlns="http://www.w3.org/2000/svg" viewBox="0 0 {WIDTH} {tall}" width="{WIDTH}" height="{tall}"><style>{style}</style>\n'
            + '<rect width="100%" height="100%" fill="#fff"/>\n' + "\n".join(heads + paths + boxes) + "\n</svg>\n")


def main():
    bands, given = read("crates.txt")
    bands = bands if bands[0][0] else bands[1:]
    ways = direct(given)
    lines = without_longer_ways({crate: {it for some in ways[crate] for it in some if it in given} for crate in given})
    tables = open(TABLES, encoding="utf-8").read()
    for path, text in ((PICTURE, draw(bands, given, lines)), (TABLES, with_column(tables, given, ways))):
        if open(path, encoding="utf-8").read() == text:
            continue
        if "--check" in sys.argv:
            sys.exit(f"{path} is not what the sources say: run .ci/map.py")
        open(path, "w", encoding="utf-8").write(text)


if __name__ == "__main__":
    main()
