#!/usr/bin/env python3
"""Draws docs/graph.svg and docs/timeline.svg, the two pictures of docs/REFERENCE.md.

usage: docs/pictures.py [--check]      --check compares with the files instead of writing them
"""
import os
import sys

HERE = os.path.dirname(os.path.abspath(__file__))
INK, SOFT, OUT, IN, MARK = "#222", "#999", "#1f5fa8", "#b4501e", "#2d7d46"


class Picture:
    def __init__(self, width, height, title):
        self.parts = [
            f'<svg xmlns="http://www.w3.org/2000/svg" viewBox="0 0 {width} {height}" width="{width}" height="{height}"'
            f' font-family="sans-serif" font-size="14">',
            f"<title>{title}</title>",
            f'<rect width="{width}" height="{height}" fill="#fff"/>',
            '<defs><marker id="tip" viewBox="0 0 10 10" refX="9" refY="5" markerWidth="8" markerHeight="8"'
            f' orient="auto-start-reverse"><path d="M0 0L10 5L0 10z" fill="{INK}"/></marker></defs>',
        ]

    def text(self, x, y, words, anchor="middle", colour=INK, size=14):
        look = f'text-anchor="{anchor}" fill="{colour}" font-size="{size}"'
        self.parts.append(f'<text x="{x}" y="{y}" {look}>{words}</text>')

    def circle(self, x, y, r, colour=INK, fill="#fff"):
        self.parts.append(f'<circle cx="{x}" cy="{y}" r="{r}" fill="{fill}" stroke="{colour}" stroke-width="1.5"/>')

    def path(self, d, colour=INK, tip=False):
        end = ' marker-end="url(#tip)"' if tip else ""
        self.parts.append(f'<path d="{d}" fill="none" stroke="{colour}" stroke-width="1.5"{end}/>')

    def box(self, x, y, words, colour=INK):
        look = f'fill="#fff" stroke="{colour}" stroke-width="1.5"'
        self.parts.append(f'<rect x="{x}" y="{y}" width="34" height="26" {look}/>')
        self.text(x + 17, y + 18, words, colour=colour)

    def chain(self, x, y, label, items):
        """A labelled order: boxes with a line between neighbours. Items are words with a colour."""
        self.text(x, y + 18, label, "start")
        for i, (words, colour) in enumerate(items):
            at = x + 110 + 50 * i
            if i:
                self.path(f"M{at - 16} {y + 13}H{at}", SOFT)
            self.box(at, y, words, colour)
        if not items:
            self.text(x + 110, y + 18, "empty", "start", SOFT)

    def whole(self):
        return "\n".join(self.parts + ["</svg>", ""])


def graph():
    """The graph of REFERENCE 10.8, its lists worked out from the calls that make it."""
    vseq, edges, lists = [1, 2, 3], {1: (1, 2), 2: (2, 1), 3: (1, 1)}, {1: [], 2: [], 3: []}
    for e, (alpha, omega) in edges.items():
        lists[alpha].append(2 * e)
        lists[omega].append(2 * e + 1)
    vseq.remove(3)
    vseq.insert(vseq.index(1), 3)
    lists[1].remove(7)
    lists[1].insert(lists[1].index(2), 7)

    p = Picture(800, 330, "A graph with three vertices and three edges, and its three kinds of orders")
    p.path("M118 108C170 70 222 70 270 105", tip=True)
    p.path("M272 132C222 170 170 170 120 135", tip=True)
    p.path("M82 108C30 70 30 170 80 135", tip=True)
    for x, y, v in ((100, 120, 1), (290, 120, 2), (195, 260, 3)):
        p.circle(x, y, 24)
        p.text(x, y + 5, str(v))
    p.text(195, 68, "edge 1")
    p.text(195, 184, "edge 2")
    p.text(36, 78, "edge 3")
    p.text(134, 88, "2", colour=OUT, size=12)
    p.text(256, 88, "3", colour=IN, size=12)
    p.text(256, 162, "4", colour=OUT, size=12)
    p.text(134, 162, "5", colour=IN, size=12)
    p.text(68, 92, "6", colour=OUT, size=12)
    p.text(68, 162, "7", colour=IN, size=12)

    p.chain(390, 30, "Vseq", [(str(v), INK) for v in vseq])
    p.chain(390, 80, "Eseq", [(str(e), INK) for e in edges])
    for i, v in enumerate(vseq):
        p.chain(390, 150 + 45 * i, f"list of {v}", [(str(w), IN if w % 2 else OUT) for w in lists[v]])
    p.text(390, 292, "out word 2e, seen from alpha", "start", OUT, 13)
    p.text(390, 312, "in word 2e + 1, seen from omega", "start", IN, 13)
    return p.whole()


def timeline():
    """REFERENCE 4.3: a change made at place 2 of 4, with marks at places 1, 2 and 4."""
    p = Picture(800, 330, "A timeline before and after a change made at place 2")

    def row(y, graphs, place, marks, caption):
        p.text(20, y - 52, caption, "start")
        for i, name in enumerate(graphs):
            x = 60 + 150 * i
            if i:
                p.path(f"M{x - 124} {y}H{x - 27}", tip=True)
                p.text(x - 75, y - 8, f"step {i}", size=12)
            p.circle(x, y, 26, fill="#fff4cc" if i == place else "#fff")
            p.text(x, y + 4, name, size=13)
            if i == place:
                p.text(x, y - 33, f"place p = {i}", size=12)
        for number, at in marks:
            x = 60 + 150 * at
            p.path(f"M{x} {y + 26}V{y + 40}", MARK)
            p.text(x, y + 55, f"mark {number}", colour=MARK, size=13)

    row(85, ["G0", "G1", "G2", "G3", "G4"], 2, [(7, 1), (5, 2), (9, 4)],
        "After four changes and two undos: redo could still go to G3 and G4.")
    row(245, ["G0", "G1", "G2", "new G3"], 3, [(7, 1), (5, 2)],
        "After one more change: the old G3 and G4 are forgotten and mark 9 has ended; mark 5, at p itself, stays.")
    return p.whole()


def main():
    wrong = 0
    for name, drawn in (("graph.svg", graph()), ("timeline.svg", timeline())):
        file = os.path.join(HERE, name)
        if sys.argv[1:] != ["--check"]:
            open(file, "w", encoding="utf-8").write(drawn)
        elif not os.path.exists(file) or open(file, encoding="utf-8").read() != drawn:
            print(f"docs/{name} is not what docs/pictures.py draws")
            wrong = 1
    return wrong


if __name__ == "__main__":
    sys.exit(main())
