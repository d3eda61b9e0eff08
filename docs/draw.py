#!/usr/bin/env python3
"""Draws the pictures of these pages, as SVG, from the text sources beside them.

    docs/draw.py                   docs/NAME.svg anew of each docs/NAME.dot and docs/NAME.txt
    docs/draw.py FILE              the picture of a source, on standard output
    td plan PLAN --dot | docs/draw.py -    that of a plan

A source NAME.dot is Graphviz's language, as far as `td plan --dot` writes it: nodes and edges with attributes, and clusters, nested
ones too. It is laid out from left to right, by the longest path that leads to a vertex; a loop is a rounded box around its vertices,
and what goes back in it runs below them. A source NAME.txt is a table of strips (`Strips`). Needs Python alone."""

import collections
import html
import pathlib
import re
import sys

HERE = pathlib.Path(__file__).resolve().parent

FONT = "DejaVu Sans, Verdana, Helvetica, Arial, sans-serif"
INK, GREY, WHITE, BACK, LOOP = "#1f2933", "#52606d", "#ffffff", "#b45309", "#2b6cb0"
LOOP_FILLS = ["#f1f6fc", "#dfecf9", "#cce0f4"]

# The fill and the border of each shape; a node has that of its kind, the second word of its label, or the one it names.
Paint = collections.namedtuple("Paint", "shape fill line")
PAINTS = {
    "input": Paint("arrow", "#e3f4e8", "#2f7d4f"), "output": Paint("arrow", "#e3f4e8", "#2f7d4f"),
    "map": Paint("box", WHITE, "#52606d"), "distinct": Paint("box", "#fff3d1", "#a16a0a"), "group": Paint("box", "#fff3d1", "#a16a0a"),
    "fold": Paint("cylinder", "#eee6fb", "#6b46c1"),
    "enter": Paint("pill", WHITE, LOOP), "leave": Paint("pill", WHITE, LOOP), "feedback": Paint("pill", "#fdf0e1", BACK),
}
SHAPES = {
    "box": PAINTS["map"], "cylinder": PAINTS["fold"], "cds": PAINTS["input"], "ellipse": PAINTS["enter"], "note": PAINTS["group"],
}

# Sizes in pixels: of the letters, around a text, between columns, between what stands above one another.
SIZE, SMALL, LINE = 14, 12, 18
AROUND_TEXT, GAP, LANE, APART, MARGIN = 8, 32, 10, 16, 14
LETTERS_OF_A_LINE = 17


def width_of(text, size=SIZE):
    """About how wide a text is."""
    narrow, wide = sum(letter in "ijltfr.,:;'|!()[] -" for letter in text), sum(letter in "mwMW@%" for letter in text)
    return size * (0.40 * narrow + 0.92 * wide + 0.63 * (len(text) - narrow - wide))


def wrapped(text, most):
    """A text in as few lines of so many letters as its words allow, and these about equally long."""
    lines = filled(text, most)
    return next(shorter for least in range(1, most + 1) if len(shorter := filled(text, least)) == len(lines))


def filled(text, most):
    lines = [""]
    for word in text.split():
        if lines[-1] and len(lines[-1]) + 1 + len(word) > most:
            lines.append("")
        lines[-1] = f"{lines[-1]} {word}".strip()
    return lines


# What is drawn


class Sheet:
    """Pieces of SVG, in the order in which they are drawn."""

    def __init__(self):
        self.pieces = []

    def add(self, tag, text=None, **attributes):
        said = "".join(f' {name.replace("_", "-")}="{shown(value)}"' for name, value in attributes.items())
        self.pieces.append(f"<{tag}{said}/>" if text is None else f"<{tag}{said}>{html.escape(text, quote=False)}</{tag}>")

    def text(self, x, y, text, size=SIZE, fill=INK, anchor="middle", **more):
        self.add("text", text, x=x, y=y, font_size=size, fill=fill, text_anchor=anchor, **more)

    def box(self, x, y, wide, high, fill, line, rx=4, **more):
        self.add("rect", x=x, y=y, width=wide, height=high, rx=rx, fill=fill, stroke=line, stroke_width=1.4, **more)

    def path(self, way, fill="none", line=GREY, **more):
        self.add("path", d=way, fill=fill, stroke=line, stroke_width=1.4, **more)

    def head(self, x, y, line, step=8):
        """The head of an arrow whose point is here; a negative step makes one that points to the left."""
        self.add("path", d=f"M{shown(x)} {shown(y)}l{shown(-step)} -4v8z", fill=line)

    def svg(self, wide, high, title):
        wide, high = round(wide), round(high)
        return "\n".join([
            f'<svg xmlns="http://www.w3.org/2000/svg" width="{wide}" height="{high}" viewBox="0 0 {wide} {high}" font-family="{FONT}">',
            f"<title>{html.escape(title)}</title>",
            f'<rect width="{wide}" height="{high}" rx="6" fill="{WHITE}"/>', *self.pieces, "</svg>", ""])


def shown(value):
    """A number with one digit at most behind the point."""
    return f"{value:.1f}".removesuffix(".0") if isinstance(value, float) else str(value)


# Graphs: what a source in Graphviz's language says


class Node:
    def __init__(self, name, block):
        self.name, self.block = name, block
        self.attributes = {"label": name}
        self.x = self.y = 0

    def size_up(self):
        """Knows its lines, its look and its size once its label is known."""
        first, *rest = self.attributes["label"].split("\n")
        self.kind = first.split()[1] if len(first.split()) > 1 and first.split()[1] in PAINTS else None
        self.paint = PAINTS.get(self.kind) or SHAPES.get(self.attributes.get("shape"), SHAPES["box"])
        self.lines = [first] + [line for text in rest for line in wrapped(text, LETTERS_OF_A_LINE)]
        widths = [width_of(line, SIZE if at == 0 else SMALL) for at, line in enumerate(self.lines)]
        self.wide = max(widths) + 2 * AROUND_TEXT + (8 if self.paint.shape == "arrow" else 0)
        self.high = LINE * len(self.lines) + (8 if self.paint.shape == "pill" else 14) + (10 if self.paint.shape == "cylinder" else 0)

    def goes_back(self):
        return self.kind == "feedback"

    def draw(self, sheet):
        left, top, right, bottom = self.x - self.wide / 2, self.y - self.high / 2, self.x + self.wide / 2, self.y + self.high / 2
        _, fill, line = self.paint
        middle = self.y
        if self.paint.shape == "arrow":
            sheet.path(f"M{shown(left)} {shown(top)}H{shown(right - 10)}L{shown(right)} {shown(self.y)}L{shown(right - 10)} {shown(bottom)}"
                       f"H{shown(left)}z", fill, line)
        elif self.paint.shape == "cylinder":
            half, middle, rim = shown(self.wide / 2), self.y + 5, shown(top + 6)
            sheet.path(f"M{shown(left)} {rim}V{shown(bottom - 6)}a{half} 6 0 0 0 {shown(self.wide)} 0V{rim}", fill, line)
            sheet.add("ellipse", cx=self.x, cy=top + 6, rx=self.wide / 2, ry=6, fill=WHITE, stroke=line, stroke_width=1.4)
        else:
            sheet.box(left, top, self.wide, self.high, fill, line, rx=self.high / 2 if self.paint.shape == "pill" else 4)
        for at, text in enumerate(self.lines):
            y = middle + LINE * (at - (len(self.lines) - 1) / 2) + 5
            sheet.text(self.x - (3 if self.paint.shape == "arrow" else 0), y, text, SIZE if at == 0 else SMALL, INK if at == 0 else GREY)


Edge = collections.namedtuple("Edge", "start end attributes")


class Block:
    """A loop, or all of the graph: its items are nodes and blocks."""

    def __init__(self, above):
        self.above, self.label, self.items = above, None, []
        self.depth = 0 if above is None else above.depth + 1
        self.x = self.y = 0

    def nodes(self):
        return [node for item in self.items for node in (item.nodes() if isinstance(item, Block) else [item])]

    def draw(self, sheet):
        """The boxes, from the outermost."""
        if self.above is not None:
            left, top = self.x - self.wide / 2, self.y - self.high / 2
            sheet.box(left, top, self.wide, self.high, LOOP_FILLS[min(self.depth, 3) - 1], LOOP, rx=14)
            if self.label:
                sheet.text(left + 14, top + 20, self.label, 13, LOOP, "start", font_weight="bold")
        for item in self.items:
            if isinstance(item, Block):
                item.draw(sheet)


class Graph:
    """What a source says, line by line."""

    NAME = r'[A-Za-z_]\w*|"(?:[^"\\]|\\.)*"'

    def __init__(self, text):
        self.top = self.block = Block(None)
        self.nodes, self.edges = {}, []
        for statement in re.findall(r'(?:[^;{}\n"]|"(?:[^"\\]|\\.)*")+|[{}]', re.sub(r"(?m)^\s*(#|//).*$", "", text)):
            self.take(statement.strip())
        for node in self.nodes.values():
            node.size_up()
            node.high = max(node.high, 15 * sum(edge.end is node for edge in self.edges) + 6)

    def take(self, said):
        attributes = {name: value.strip('"').replace("\\n", "\n").replace('\\"', '"')
                      for name, value in re.findall(rf'(\w+)\s*=\s*("(?:[^"\\]|\\.)*"|[\w.#]+)', said)}
        names = re.match(rf"\s*(?:{self.NAME})(?:\s*->\s*(?:{self.NAME}))*", said)
        if said == "}" and self.block.above:
            self.block = self.block.above
        elif said.startswith("subgraph"):
            self.block.items.append(Block(self.block))
            self.block = self.block.items[-1]
        elif not said or said in "{}" or said.startswith(("digraph", "node", "edge", "graph")):
            pass
        elif re.match(r"\w+\s*=", said):
            self.block.label = attributes.get("label", self.block.label)
        elif names is None:
            raise ValueError(f"no line of a graph: {said}")
        elif "->" in names[0]:
            way = [self.node(name.strip().strip('"')) for name in names[0].split("->")]
            self.edges += [Edge(start, end, attributes) for start, end in zip(way, way[1:])]
        else:
            self.node(names[0].strip('"')).attributes.update(attributes)

    def node(self, name):
        if name not in self.nodes:
            self.nodes[name] = Node(name, self.block)
            self.block.items.append(self.nodes[name])
        return self.nodes[name]


# Where things stand: a block is laid out in columns, once the blocks in it are


class Bend:
    """A place in a column through which a long edge goes."""

    wide, high, x, y = 0, 8, 0, 0


class Layout:
    """The columns of a block, the ways of its edges, and below them what goes back."""

    def __init__(self, graph, block):
        self.block = block
        self.item_of = {node: item for item in block.items for node in (item.nodes() if isinstance(item, Block) else [item])}
        self.lanes = [item for item in block.items if isinstance(item, Node) and item.goes_back()]
        self.items = [item for item in block.items if item not in self.lanes]
        self.edges = [edge for edge in graph.edges if self.is_of_block(edge)]
        self.ahead = self.without_cycles([edge for edge in self.edges if not self.is_back(edge)])
        self.back = [edge for edge in self.edges if edge not in self.ahead]
        self.rank()
        self.set_columns()
        self.order()
        self.set_heights()
        self.set_widths()
        self.set_lanes()
        self.set_size()

    def is_of_block(self, edge):
        start, end = self.item_of.get(edge.start), self.item_of.get(edge.end)
        return start is not None and end is not None and start is not end

    def is_back(self, edge):
        return edge.start in self.lanes or edge.end in self.lanes or edge.attributes.get("constraint") == "false"

    def without_cycles(self, edges):
        """Edges none of which lead back: in the order in which they stand, but for those that would close a cycle."""
        kept, below = [], collections.defaultdict(set)
        for edge in edges:
            start, end = self.item_of[edge.start], self.item_of[edge.end]
            if start not in below[end]:
                kept.append(edge)
                reached = {end} | below[end]
                for item in [start] + [item for item in list(below) if start in below[item]]:
                    below[item] |= reached
        return kept

    def rank(self):
        """The column of each item: the longest path to it; what leaves stands in the last one."""
        self.column = {item: 0 for item in self.items}
        for _ in self.items:
            for edge in self.ahead:
                start, end = self.item_of[edge.start], self.item_of[edge.end]
                self.column[end] = max(self.column[end], self.column[start] + 1)
        last = max(self.column.values(), default=0)
        starts = {self.item_of[edge.start] for edge in self.ahead}
        leaving = [item for item in self.items if isinstance(item, Node) and item.kind in ("leave", "output") and item not in starts]
        for item in leaving:
            self.column[item] = last
        self.last = last

    def set_columns(self):
        """The items of each column, and the way of each edge: where it is long, with a bend in each column between."""
        self.columns = [[item for item in self.items if self.column[item] == at] for at in range(self.last + 1)]
        self.ways = []
        for edge in self.ahead:
            start, end = self.column[self.item_of[edge.start]], self.column[self.item_of[edge.end]]
            bends = [Bend() for _ in range(start + 1, end)]
            for at, bend in enumerate(bends, start + 1):
                self.columns[at].append(bend)
            self.ways.append((edge, bends))
        self.links = collections.defaultdict(list)
        for edge, bends in self.ways:
            stops = [(self.item_of[edge.start], edge.start), *[(bend, bend) for bend in bends], (self.item_of[edge.end], edge.end)]
            for (one, one_at), (other, other_at) in zip(stops, stops[1:]):
                self.links[one].append((one_at, other, other_at, 1))
                self.links[other].append((other_at, one, one_at, -1))

    def order(self):
        """Orders each column by the places of its neighbours', forth and back."""
        place = {item: at for column in self.columns for at, item in enumerate(column)}
        for sweep in range(8):
            side = -1 if sweep % 2 == 0 else 1
            for column in self.columns if side < 0 else self.columns[::-1]:
                wish = {item: self.middle(place[other] for _, other, _, way in self.links[item] if way == side) for item in column}
                column.sort(key=lambda item: place[item] if wish[item] is None else wish[item])
                place.update({item: at for at, item in enumerate(column)})

    @staticmethod
    def middle(numbers):
        numbers = list(numbers)
        return sum(numbers) / len(numbers) if numbers else None

    def set_heights(self):
        """The heights: each item as near to those of its neighbours as the others of its column let it."""
        for column in self.columns:
            self.stack(column, [0] * len(column))
        for sweep in range(12):
            for column in self.columns if sweep % 2 == 0 else self.columns[::-1]:
                wishes = [self.middle(other.y + self.within(other, other_at) - self.within(item, at)
                                      for at, other, other_at, _ in self.links[item]) for item in column]
                self.stack(column, [item.y if wish is None else wish for item, wish in zip(column, wishes)])

    @staticmethod
    def within(item, node):
        """How far below the middle of an item a node of it stands."""
        return node.y if isinstance(item, Block) else 0

    @staticmethod
    def stack(column, wishes):
        """Gives the items of a column the heights that are nearest to the wished ones, none over another."""
        below, depth = [], 0
        for above, item in zip([None, *column], column):
            depth += (above.high + item.high) / 2 + APART if above else 0
            below.append(depth)
        runs = []
        for wish, depth in zip(wishes, below):
            runs.append([wish - depth, 1])
            while len(runs) > 1 and runs[-2][0] > runs[-1][0]:
                mean, count = runs.pop()
                runs[-1] = [(runs[-1][0] * runs[-1][1] + mean * count) / (runs[-1][1] + count), runs[-1][1] + count]
        means = [mean for mean, count in runs for _ in range(count)]
        for item, mean, depth in zip(column, means, below):
            item.y = mean + depth

    def set_widths(self):
        """Where columns begin and end; a gap is wide enough for what goes down in it."""
        downs = [0] * (self.last + 2)
        for edge in self.back:
            start, end = self.item_of[edge.start], self.item_of[edge.end]
            if start not in self.lanes:
                downs[self.column[start] + 1] += 1
            if end not in self.lanes:
                downs[self.column[end]] += 1
        self.left, self.right, x = [], [], 0
        for at, column in enumerate(self.columns):
            x += GAP / 2 + downs[0] * LANE if at == 0 else GAP + downs[at] * LANE
            wide = max(item.wide for item in column)
            for item in column:
                item.x = x + wide / 2
            self.left.append(x)
            self.right.append(x + wide)
            x += wide
        self.wide = x + GAP / 2 + downs[self.last + 1] * LANE

    def set_lanes(self):
        """Stands what goes back below all columns, one lane below the other, in the middle of its way."""
        rows = [item.y + item.high / 2 for column in self.columns for item in column]
        self.bottom = max(rows, default=0)
        for node in self.lanes:
            froms = [self.right[self.column[self.item_of[edge.start]]] for edge in self.back if edge.end is node]
            tos = [self.left[self.column[self.item_of[edge.end]]] for edge in self.back if edge.start is node]
            node.x = (max(froms, default=self.right[-1]) + min(tos, default=self.left[0])) / 2
            node.y = self.bottom + APART + node.high / 2
            self.bottom += APART + node.high

    def set_size(self):
        """The block's size, and its items' places from its middle."""
        top = min([item.y - item.high / 2 for column in self.columns for item in column], default=0)
        above = 32 if self.block.above is not None and self.block.label else GAP / 2
        below = self.bottom + (14 if self.block.above is not None else 0)
        direct = [edge for edge in self.back if edge.start not in self.lanes and edge.end not in self.lanes]
        self.direct = {id(edge): below + APART * (at + 1) for at, edge in enumerate(direct)}
        below += APART * len(direct)
        label = width_of(self.block.label or "", 13) + 40
        if self.block.above is None:
            above = 0
        self.block.wide, self.block.high = max(self.wide, label), below - top + above
        self.shift = (-self.wide / 2, -(top - above) - self.block.high / 2)
        for item in [item for column in self.columns for item in column] + self.lanes:
            item.x += self.shift[0]
            item.y += self.shift[1]


def lay_out(graph, block, layouts):
    """Lays out a block, after the blocks in it."""
    for item in block.items:
        if isinstance(item, Block):
            lay_out(graph, item, layouts)
    layouts.append(Layout(graph, block))


def settle(block, x, y, layouts):
    """Moves all in a block to where they stand on the sheet."""
    layout = next(it for it in layouts if it.block is block)
    block.x, block.y = x, y
    layout.moved = (x + layout.shift[0], y + layout.shift[1])
    for bends in (bends for _, bends in layout.ways):
        for bend in bends:
            bend.x, bend.y = bend.x + x, bend.y + y
    for item in block.items:
        if isinstance(item, Block):
            settle(item, item.x + x, item.y + y, layouts)
        else:
            item.x, item.y = item.x + x, item.y + y


# Edges


class Ways:
    """Draws the edges of a graph that is laid out."""

    def __init__(self, graph, sheet):
        self.graph, self.sheet = graph, sheet
        self.downs = collections.Counter()

    def at_port(self, edge):
        """Where an edge ends: at its place among those that end at the same node."""
        ends = [it for it in self.graph.edges if it.end is edge.end]
        apart = min(18, (edge.end.high - 6) / max(1, len(ends)))
        return edge.end.x - edge.end.wide / 2, edge.end.y + apart * (ends.index(edge) - (len(ends) - 1) / 2)

    def say_ports(self):
        """The port at the end of each edge that tells it, over all lines."""
        for edge in self.graph.edges:
            x, y = self.at_port(edge)
            halo = {"stroke": WHITE, "stroke_width": 3, "paint_order": "stroke"}
            if "headlabel" in edge.attributes:
                self.sheet.text(x - 12, y - 3, edge.attributes["headlabel"], 11, GREY, **halo)

    def ahead(self, layout, edge, bends):
        """An edge from left to right: level within columns, and bent between them."""
        x, y = edge.start.x + edge.start.wide / 2, edge.start.y
        to_x, to_y = self.at_port(edge)
        first, last = layout.column[layout.item_of[edge.start]], layout.column[layout.item_of[edge.end]]
        line = BACK if edge.start.goes_back() else GREY
        way = f"M{shown(x)} {shown(y)}"
        for at, bend_y in zip(range(first, last), [*[bend.y for bend in bends], to_y]):
            gap, next_gap = layout.right[at] + layout.moved[0], layout.left[at + 1] + layout.moved[0]
            middle = (gap + next_gap) / 2
            way += f"H{shown(gap)}C{shown(middle)} {shown(y)} {shown(middle)} {shown(bend_y)} {shown(next_gap)} {shown(bend_y)}"
            y = bend_y
        self.sheet.path(f"{way}H{shown(to_x - 6)}", line=line)
        self.sheet.head(to_x, to_y, line)

    def back(self, layout, edge):
        """An edge that goes back: out to a gap, down or up in it, and level to its end."""
        lanes = layout.lanes
        start, end = edge.start, edge.end
        x, y = start.x + start.wide / 2, start.y
        to_x, to_y = self.at_port(edge)
        dashes = {"stroke_dasharray": "6 4"}
        if end in lanes:
            down = self.gap_after(layout, start)
            self.sheet.path(rounded([(x, y), (down, y), (down, end.y), (end.x + end.wide / 2 + 6, end.y)]), line=BACK, **dashes)
            self.sheet.head(end.x + end.wide / 2, end.y, BACK, -8)
        elif start in lanes:
            up, from_x = self.gap_before(layout, end), start.x - start.wide / 2
            self.sheet.path(rounded([(from_x, start.y), (up, start.y), (up, to_y), (to_x - 6, to_y)]), line=BACK, **dashes)
            self.sheet.head(to_x, to_y, BACK)
        else:
            down, up, low = self.gap_after(layout, start), self.gap_before(layout, end), layout.direct[id(edge)] + layout.moved[1]
            self.sheet.path(rounded([(x, y), (down, y), (down, low), (up, low), (up, to_y), (to_x - 6, to_y)]), line=BACK, **dashes)
            self.sheet.head(to_x, to_y, BACK)

    def gap_after(self, layout, node):
        at = layout.column[layout.item_of[node]]
        self.downs[layout, at + 1] += 1
        return layout.right[at] + layout.moved[0] + 6 + (self.downs[layout, at + 1] - 1) * LANE

    def gap_before(self, layout, node):
        at = layout.column[layout.item_of[node]]
        self.downs[layout, -at] += 1
        return layout.left[at] + layout.moved[0] - 18 - (self.downs[layout, -at] - 1) * LANE


def rounded(points, radius=8):
    """A way along lines that are level or upright, with rounded corners."""
    way = f"M{shown(points[0][0])} {shown(points[0][1])}"
    for (x0, y0), (x, y), (x1, y1) in zip(points, points[1:], points[2:]):
        before, after = min(radius, (abs(x - x0) + abs(y - y0)) / 2), min(radius, (abs(x1 - x) + abs(y1 - y)) / 2)
        from_x, from_y = x - before * sign(x - x0), y - before * sign(y - y0)
        to_x, to_y = x + after * sign(x1 - x), y + after * sign(y1 - y)
        way += f"L{shown(from_x)} {shown(from_y)}Q{shown(x)} {shown(y)} {shown(to_x)} {shown(to_y)}"
    return f"{way}L{shown(points[-1][0])} {shown(points[-1][1])}"


def sign(number):
    return (number > 0) - (number < 0)


def graph_svg(text, title):
    """The picture of a source in Graphviz's language."""
    graph, layouts, sheet = Graph(text), [], Sheet()
    lay_out(graph, graph.top, layouts)
    wide, high = graph.top.wide, graph.top.high + 2 * MARGIN
    settle(graph.top, wide / 2, high / 2, layouts)
    graph.top.draw(sheet)
    ways = Ways(graph, sheet)
    for layout in layouts:
        for edge, bends in layout.ways:
            ways.ahead(layout, edge, bends)
        for edge in layout.back:
            ways.back(layout, edge)
    ways.say_ports()
    for node in graph.nodes.values():
        node.draw(sheet)
    return sheet.svg(wide, high, title)


# Strips: rows of boxes, what a disk has at one moment after another


class Strips:
    """A table of strips, line by line of its source:

        title TEXT              over all
        over FIRST LAST TEXT    a bracket over the boxes of these columns, from 0
        ring FIRST LAST TEXT    the same, as an arrow from the last to the first
        head TEXT | TEXT ..     over the column of words, and over each box
        row TEXT | MARK TEXT .. | TEXT    words, a box for each column, and words behind them
        note TEXT               below all

    A box's MARK: `+` what counts, `-` what is there and does not count, `~` what is torn, `.` what is closed."""

    LOOKS = {"+": ("#d9f0e1", "#2f7d4f", INK), "-": ("#f0f2f4", "#9aa5b1", GREY),
             "~": ("url(#torn)", "#b91c1c", "#b91c1c"), ".": (WHITE, "#9aa5b1", GREY)}
    TORN = ('<defs><pattern id="torn" width="8" height="8" patternUnits="userSpaceOnUse" patternTransform="rotate(45)">'
            '<rect width="8" height="8" fill="#fff5f5"/><rect width="3" height="8" fill="#f9d0d0"/></pattern></defs>')
    WORDS, BEHIND, LEAST, ROW = 27, 32, 74, 16

    def __init__(self, text):
        self.title, self.brackets, self.head, self.rows, self.notes = "", [], [], [], []
        for line in text.splitlines():
            what, _, said = line.strip().partition(" ")
            if what and not what.startswith("#"):
                self.take(what, said.strip())
        count = len(self.rows[0]) - 2
        self.wide_words = max(width_of(line, SMALL + 1) for words, *_ in self.rows for line in wrapped(words, self.WORDS)) + 16
        texts = [[self.head[at + 1], *[row[at + 1][1:].strip() for row in self.rows]] for at in range(count)]
        self.wide = [max(self.LEAST, *[width_of(text, SMALL) + 14 for text in column]) for column in texts]
        self.left = [MARGIN + self.wide_words + sum(self.wide[:at]) + 4 * at for at in range(count + 1)]

    def take(self, what, said):
        if what == "title":
            self.title = said
        elif what in ("over", "ring"):
            first, last, text = said.split(" ", 2)
            self.brackets.append((what == "ring", int(first), int(last), text))
        elif what == "note":
            self.notes.append(said)
        elif what in ("head", "row"):
            cells = [cell.strip() for cell in said.split("|")]
            self.head, self.rows = (cells, self.rows) if what == "head" else (self.head, [*self.rows, cells])
        else:
            raise ValueError(f"no line of a table of strips: {what} {said}")

    def svg(self):
        sheet = Sheet()
        sheet.pieces.append(self.TORN)
        sheet.text(MARGIN, 28, self.title, 15, INK, "start", font_weight="bold")
        y = 46 + (34 if self.brackets else 0)
        for bracket in self.brackets:
            self.draw_bracket(sheet, y - 8, *bracket)
        sheet.text(MARGIN, y + 10, self.head[0], SMALL, GREY, "start")
        for at, text in enumerate(self.head[1:len(self.wide) + 1]):
            sheet.text(self.left[at] + self.wide[at] / 2, y + 10, text, SMALL, GREY)
        y += 20
        for row in self.rows:
            y += self.draw_row(sheet, y, row)
        for note in self.notes:
            sheet.text(MARGIN, y + 16, note, SMALL, GREY, "start")
            y += 20
        behind = max(width_of(line, SMALL + 1) for row in self.rows for line in wrapped(row[-1], self.BEHIND))
        wide = max([self.left[-1] + 12 + behind, width_of(self.title, 16) + MARGIN, *[width_of(it, SMALL) + MARGIN for it in self.notes]])
        return sheet.svg(wide + MARGIN, y + 12, self.title)

    def draw_bracket(self, sheet, y, is_ring, first, last, text):
        left, right = self.left[first] + 3, self.left[last] + self.wide[last] - 3
        if is_ring:
            left, right = left + self.wide[first] / 2, right - self.wide[last] / 2
            sheet.path(rounded([(right, y), (right, y - 12), (left, y - 12), (left, y - 6)]), line=LOOP)
            sheet.add("path", d=f"M{shown(left)} {shown(y)}l-4 -8h8z", fill=LOOP)
        else:
            sheet.path(rounded([(left, y), (left, y - 12), (right, y - 12), (right, y)], 4), line=GREY)
        sheet.text((left + right) / 2, y - 17, text, SMALL, LOOP if is_ring else GREY)

    def draw_row(self, sheet, y, row):
        """Draws a row from here on, and answers its height."""
        words, behind = wrapped(row[0], self.WORDS), wrapped(row[-1], self.BEHIND)
        high = max(34, self.ROW * max(len(words), len(behind)) + 4)
        for x, lines in ((MARGIN, words), (self.left[-1] + 10, behind)):
            for at, line in enumerate(lines):
                sheet.text(x, y + high / 2 + self.ROW * (at - (len(lines) - 1) / 2) + 4, line, SMALL + 1, INK, "start")
        for at, cell in enumerate(row[1:-1]):
            fill, line, ink = self.LOOKS[cell[0]]
            more = {"stroke_dasharray": "4 3"} if cell[0] == "." else {}
            sheet.box(self.left[at], y + high / 2 - 15, self.wide[at], 30, fill, line, 3, **more)
            text = cell[1:].strip()
            halo = {"stroke": WHITE, "stroke_width": 3, "paint_order": "stroke"} if cell[0] == "~" else {}
            sheet.text(self.left[at] + self.wide[at] / 2, y + high / 2 + 4, text, SMALL, ink, **halo)
        return high + 12


# Sources


def picture_of(source):
    """The picture of a source."""
    text = source.read_text(encoding="utf-8")
    return Strips(text).svg() if source.suffix == ".txt" else graph_svg(text, title_of(text, source.stem))


def title_of(text, name):
    """What the first comment of a source says, or its name."""
    said = re.match(r"\s*(?:#|//)\s*(.*)", text)
    return said[1].strip() if said else f"the plan {name}"


def sources():
    return sorted([*HERE.glob("*.dot"), *HERE.glob("*.txt")])


def main():
    words = sys.argv[1:]
    if not words:
        for source in sources():
            source.with_suffix(".svg").write_text(picture_of(source), encoding="utf-8")
    elif words == ["-"]:
        sys.stdout.write(graph_svg(sys.stdin.read(), "a plan"))
    elif len(words) == 1:
        sys.stdout.write(picture_of(pathlib.Path(words[0])))
    else:
        sys.exit(__doc__)


if __name__ == "__main__":
    main()
