"""The job in Python with networkx: a MultiDiGraph whose edge keys are the numbers, lists for the orders, and undo by
a log of functions, as a user would write it.

  chart.py DIR      reads make.load and edits.load of DIR, writes the end graph to DIR/networkx.graph, prints a row
"""

import sys
import time

import networkx

from loads import read


class Chart:
    def __init__(self):
        self.graph = networkx.MultiDiGraph()
        self.vertices, self.edges, self.words, self.ends = [], [], {}, {}

    def call(self, call):
        """Makes a change; what it returns takes it back."""
        kind, a, b, c, d = call
        graph, edges, words, ends = self.graph, self.edges, self.words, self.ends
        if kind == 1:
            graph.add_node(a, type=b, value=c)
            self.vertices.append(a)
            words[a] = []
            return lambda: (graph.remove_node(a), self.vertices.pop(), words.pop(a))
        if kind == 3:
            graph.add_edge(b, c, key=a, type=d, kind=0, decimetres=0)
            edges.append(a)
            ends[a] = [b, c]
            words[b].append(2 * a)
            words[c].append(2 * a + 1)

            def undo():
                graph.remove_edge(b, c, key=a)
                edges.pop()
                del ends[a]
                words[c].pop()
                words[b].pop()

            return undo
        if kind == 4:
            x, z = ends[a]
            data = dict(graph.edges[x, z, a])
            i = edges.index(a)
            into = words[z].index(2 * a + 1)
            del words[z][into]
            out = words[x].index(2 * a)
            del words[x][out]
            graph.remove_edge(x, z, key=a)
            del edges[i]
            del ends[a]

            def undo():
                graph.add_edge(x, z, key=a, **data)
                edges.insert(i, a)
                ends[a] = [x, z]
                words[x].insert(out, 2 * a)
                words[z].insert(into, 2 * a + 1)

            return undo
        if kind in (5, 7):
            field = "type" if kind == 5 else "value"
            old = graph.nodes[a][field]
            graph.nodes[a][field] = b

            def undo():
                graph.nodes[a][field] = old

            return undo
        if kind in (6, 8):
            x, z = ends[a]
            data = graph.edges[x, z, a]
            old = dict(data)
            if kind == 6:
                data["type"] = b
            else:
                data["kind"], data["decimetres"] = b, c

            def undo():
                x, z = ends[a]
                graph.edges[x, z, a].update(old)

            return undo
        if kind in (9, 10):
            x, z = ends[a]
            side = kind - 9
            w, v = 2 * a + side, (x, z)[side]
            data = dict(graph.edges[x, z, a])
            i = words[v].index(w)
            del words[v][i]
            graph.remove_edge(x, z, key=a)
            now = [x, z]
            now[side] = b
            graph.add_edge(*now, key=a, **data)
            ends[a] = now
            words[b].append(w)

            def undo():
                data = dict(graph.edges[now[0], now[1], a])
                words[b].pop()
                graph.remove_edge(now[0], now[1], key=a)
                graph.add_edge(x, z, key=a, **data)
                ends[a] = [x, z]
                words[v].insert(i, w)

            return undo
        order = self.vertices if kind in (11, 12) else edges if kind in (13, 14) else words[ends[a // 2][a & 1]]
        i = order.index(a)
        del order[i]
        j = order.index(b) + (0 if kind & 1 else 1)
        order.insert(j, a)

        def undo():
            del order[j]
            order.insert(i, a)

        return undo

    def text(self):
        """A line for each vertex, edge and oriented word, in their orders."""
        lines = []
        for v in self.vertices:
            lines.append(f"v {v} {self.graph.nodes[v]['type']} {self.graph.nodes[v]['value']}")
        for e in self.edges:
            a, b = self.ends[e]
            data = self.graph.edges[a, b, e]
            lines.append(f"e {e} {a} {b} {data['type']} {data['kind']} {data['decimetres']}")
        for v in self.vertices:
            lines.extend(f"w {w}" for w in self.words[v])
        return "\n".join(lines) + "\n"


def loaded(start):
    """The chart of an image."""
    chart = Chart()
    at, word = 6, start[4]
    lists = {}
    for _ in range(start[0]):
        number, kind, value, degree = start[at : at + 4]
        chart.call((1, number, kind, value, 0))
        lists[number] = list(start[word : word + degree])
        at, word = at + 4, word + degree
    for at in range(start[3], start[4], 6):
        e, a, b, kind, reading, decimetres = start[at : at + 6]
        chart.call((3, e, a, b, kind))
        chart.graph.edges[a, b, e].update(kind=reading, decimetres=decimetres)
    chart.words = lists
    return chart


def timed(work):
    begun = time.process_time()
    result = work()
    return 1e6 * (time.process_time() - begun), result


def listed(calls):
    return [tuple(calls[i : i + 5]) for i in range(0, len(calls), 5)]


out = sys.argv[1]
make = listed(read(f"{out}/make.load")[3])
_, image, _, calls = read(f"{out}/edits.load")
calls = listed(calls)
made, _ = timed(lambda: [Chart.call(chart, c) for chart in [Chart()] for c in make])
chart = loaded(image)
edits, log = timed(lambda: [chart.call(c) for c in calls])
undos, _ = timed(lambda: [back() for back in reversed(log)])
redos, _ = timed(lambda: [chart.call(c) for c in calls])
open(f"{out}/networkx.graph", "w").write(chart.text())
print(f"| networkx {networkx.__version__} | {made:.0f} | {edits:.0f} | {undos:.0f} | {redos:.0f} |")
