#!/usr/bin/env python3
"""Replays the records with a second model of both parts, and says how many agree.

usage: check.py [FOLDER]

The model shares no code and no data structure with the copied Rust. The order:
one list of untaken nodes, most recently moved first, degrees counted from the
arcs. The map: plain lists of nodes, links and arcs, searched from the front.
Besides, every recorded order is held against the steps of Eades, Lin and Smyth
(1993) with ties left free, and against the bounds on its held arcs.
"""

import os
import sys


# ---- the greedy order ----------------------------------------------------

def degrees(arcs, untaken):
    """Out- and in-degree of each untaken node, among untaken nodes only."""
    out = {node: 0 for node in untaken}
    into = {node: 0 for node in untaken}
    for a, b in arcs:
        if a in out and b in out:
            out[a] += 1
            into[b] += 1
    return out, into


def greedy_order(arcs):
    seen = []
    for arc in arcs:
        for node in arc:
            if node not in seen:
                seen.append(node)
    untaken = seen[::-1]
    head, tail = [], []
    while untaken:
        out, into = degrees(arcs, untaken)
        sinks = [node for node in untaken if out[node] == 0]
        sources = [node for node in untaken if into[node] == 0]
        if sinks:
            taken = sinks[0]
            tail.insert(0, taken)
        elif sources:
            taken = sources[0]
            head.append(taken)
        else:
            best = max(out[node] - into[node] for node in untaken)
            taken = next(n for n in untaken if out[n] - into[n] == best)
            head.append(taken)
        untaken.remove(taken)
        moved = [b for a, b in arcs if a == taken] + [a for a, b in arcs if b == taken]
        for node in moved:
            if node in untaken:
                untaken.remove(node)
                untaken.insert(0, node)
    return head + tail


def held_positions(arcs, order):
    place = {node: at for at, node in enumerate(order)}
    return [p for p, (a, b) in enumerate(arcs) if place[a] >= place[b]]


def follows_the_steps(arcs, order):
    """Whether some choice among ties makes the 1993 steps give this order."""
    if sorted(order) != sorted({node for arc in arcs for node in arc}):
        return False
    left = list(order)
    while left:
        out, into = degrees(arcs, left)
        if 0 in out.values():
            if out[left.pop()] != 0:
                return False
        elif 0 in into.values():
            if into[left.pop(0)] != 0:
                return False
        else:
            best = max(out[node] - into[node] for node in left)
            first = left.pop(0)
            if out[first] - into[first] != best:
                return False
    return True


def has_closed_walk(arcs):
    """Peels off nodes without an arc in: what stays has a closed walk."""
    left = {node for arc in arcs for node in arc}
    while True:
        ends = {b for a, b in arcs if a in left and b in left}
        if ends == left:
            return bool(left)
        left = ends


def bounds_hold(arcs, order, held):
    loops = sum(1 for a, b in arcs if a == b)
    pairs = len({(a, b) for a, b in arcs if a < b} & {(b, a) for a, b in arcs if a > b})
    free = [arc for p, arc in enumerate(arcs) if p not in set(held)]
    return (all(p in held for p, (a, b) in enumerate(arcs) if a == b)
            and not has_closed_walk(free)
            and bool(held) == has_closed_walk(arcs)
            and 2 * (len(held) - loops) <= len(arcs) - loops
            and len(order) + 6 * len(held) <= 3 * len(arcs) + 2 * pairs + 4 * loops)


def read_order(words):
    assert words[0] == "order"
    numbers = [int(word) for word in words[1:]]
    lists = []
    for width in (2, 1, 1):
        count = numbers.pop(0) * width
        lists.append(numbers[:count])
        del numbers[:count]
    assert not numbers
    ends, order, held = lists
    return list(zip(ends[::2], ends[1::2])), order, held


def order_agrees(words):
    arcs, order, held = read_order(words)
    return (greedy_order(arcs) == order
            and held_positions(arcs, order) == held
            and follows_the_steps(arcs, order)
            and bounds_hold(arcs, order, held))


# ---- the map ---------------------------------------------------------------

def swap_remove(items, at):
    last = items.pop()
    if at < len(items):
        items[at] = last


class Map:
    """nodes: [key, links]; a link: (other end, 'o' or 'i'); arcs: [a, b, weight]."""

    def __init__(self, node_places, arc_places):
        self.node_places, self.arc_places = node_places, arc_places
        self.nodes, self.arcs = [], []

    def node_at(self, key):
        return next((at for at, node in enumerate(self.nodes) if node[0] == key), None)

    def arc_at(self, a, b):
        return next((at for at, arc in enumerate(self.arcs) if arc[:2] == [a, b]), None)

    def links(self, key):
        """The links of a node that is put last if it is new."""
        if self.node_at(key) is None:
            self.nodes.append([key, []])
        return self.nodes[self.node_at(key)][1]

    def add_node(self, key):
        if self.node_at(key) is None and len(self.nodes) == self.node_places:
            return ["f2"]
        self.links(key)
        return ["g"]

    def add_edge(self, a, b, weight):
        at = self.arc_at(a, b)
        if at is not None:
            old, self.arcs[at][2] = self.arcs[at][2], weight
            return ["w", str(old)]
        new_keys = {key for key in (a, b) if self.node_at(key) is None}
        if len(self.nodes) + len(new_keys) > self.node_places:
            return ["f2"]
        if len(self.arcs) == self.arc_places:
            return ["f3"]
        self.arcs.append([a, b, weight])
        self.links(a).append((b, "o"))
        if a != b:
            self.links(b).append((a, "i"))
        return ["new"]

    def drop_link(self, key, link):
        links = self.links(key)
        swap_remove(links, links.index(link))

    def remove_edge(self, a, b):
        at = self.arc_at(a, b)
        if at is None:
            return ["absent"]
        weight = self.arcs[at][2]
        swap_remove(self.arcs, at)
        self.drop_link(a, (b, "o"))
        if a != b:
            self.drop_link(b, (a, "i"))
        return ["w", str(weight)]

    def remove_node(self, key):
        at = self.node_at(key)
        if at is None:
            return ["absent"]
        links = self.nodes[at][1]
        swap_remove(self.nodes, at)
        for other, direction in links:
            ends = (key, other) if direction == "o" else (other, key)
            swap_remove(self.arcs, self.arc_at(*ends))
            if other != key:
                self.drop_link(other, (key, "i" if direction == "o" else "o"))
        return ["gone"]

    def edges_directed(self, key, direction):
        shown = []
        for other, kind in self.links(key):
            if kind == direction or other == key:
                a, b = (key, other) if direction == "o" else (other, key)
                shown.append(self.arcs[self.arc_at(a, b)])
        return shown

    def words(self):
        words = ["|", "nodes", len(self.nodes)]
        for key, links in self.nodes:
            words += [key, len(links)]
            for link in links:
                words += link
            for direction in "oi":
                shown = self.edges_directed(key, direction)
                words.append(len(shown))
                for arc in shown:
                    words += arc
        words += ["|", "arcs", len(self.arcs)]
        for arc in self.arcs:
            words += arc
        return [str(word) for word in words]


CALLS = {"n": (Map.add_node, 1), "a": (Map.add_edge, 3),
         "r": (Map.remove_node, 1), "x": (Map.remove_edge, 2)}


def edits_agree(words):
    assert words[0] == "edits"
    node_places, arc_places, count = (int(word) for word in words[1:4])
    model = Map(node_places, arc_places)
    answers = ["|", "answers"]
    at = 4
    for _ in range(count):
        call, width = CALLS[words[at]]
        answers += call(model, *(int(word) for word in words[at + 1:at + 1 + width]))
        at += 1 + width
    return words[at:] == answers + model.words()


def edits_and_orders_match(folder):
    """Whether each line of orders_edits.txt has the arcs that its edits leave."""
    with open(os.path.join(folder, "edits.txt")) as edits, \
            open(os.path.join(folder, "orders_edits.txt")) as orders:
        edits, orders = edits.read().splitlines(), orders.read().splitlines()
    if len(edits) != len(orders):
        return False
    for edit, order in zip(edits, orders):
        left = [int(word) for word in edit.split(" | arcs ")[1].split(" ")][1:]
        if list(zip(left[::3], left[1::3])) != read_order(order.split(" "))[0]:
            return False
    return True


# ---- the report --------------------------------------------------------------

def main():
    folder = sys.argv[1] if len(sys.argv) > 1 else os.path.dirname(os.path.abspath(__file__))
    whole = True
    for name, agrees in (("orders_three.txt", order_agrees),
                         ("orders_random.txt", order_agrees),
                         ("edits.txt", edits_agree),
                         ("orders_edits.txt", order_agrees)):
        with open(os.path.join(folder, name)) as file:
            lines = file.read().splitlines()
        wrong = [at for at, line in enumerate(lines, 1) if not agrees(line.split(" "))]
        print(f"{name}: {len(lines) - len(wrong)} of {len(lines)} agree")
        for at in wrong[:10]:
            print(f"  line {at} differs")
        whole = whole and not wrong
    if not edits_and_orders_match(folder):
        print("orders_edits.txt does not show the arcs that edits.txt leaves")
        whole = False
    sys.exit(0 if whole else 1)


main()
