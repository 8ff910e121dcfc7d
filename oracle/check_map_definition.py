#!/usr/bin/env python3
"""The model of map_model's specs, one Python function to each definition, replayed over recorded edits.

usage: check_map_definition.py RECORDS..

Each definition keeps its antt name, so that the two can be read side by side. Every answer, the final
nodes with their links, what edges_directed shows of each, and the final arcs are compared with the record, in sequence.
After each edit the laws of Sound and Shown are tested too.
"""

import sys
from collections import namedtuple

Link = namedtuple("Link", "key index direction")
Node = namedtuple("Node", "key index links")
Arc = namedtuple("Arc", "source source_index target target_index weight")
Model = namedtuple("Model", "nodes arcs node_places arc_places")
Outgoing, Incoming = "o", "i"


# ---- Lists
def has(p, l):
    return any(p(x) for x in l)


def found(p, l):
    for x in l:
        if p(x):
            return x
    return None


def moved(l):
    return [] if not l else [l[-1]] + l[:-1]


def taken(p, l):
    if not l:
        return []
    return moved(l[1:]) if p(l[0]) else [l[0]] + taken(p, l[1:])


def changed(p, f, l):
    if not l:
        return []
    return [f(l[0])] + l[1:] if p(l[0]) else [l[0]] + changed(p, f, l[1:])


def kept(p, l):
    return [x for x in l if p(x)]


def present(l):
    return [x for x in l if x is not None]


# ---- Model
def opposite(d):
    return Incoming if d == Outgoing else Outgoing


def named(i):
    return lambda x: x.index == i


def links_to(i, d):
    return lambda k: k.index == i and k.direction == d


def between(i, j):
    return lambda x: x.source_index == i and x.target_index == j


def links_of(x):
    return [] if x is None else x.links


def links_at(i, nodes):
    return links_of(found(named(i), nodes))


def weight_of(x):
    return None if x is None else x.weight


def weight_at(i, j, arcs):
    return weight_of(found(between(i, j), arcs))


def joined(n, i, nodes):
    return nodes if has(named(i), nodes) else nodes + [Node(n, i, [])]


def relinked(f):
    return lambda x: Node(x.key, x.index, f(x.links))


def linked(n, i, o, j, d, nodes):
    return changed(named(i), relinked(lambda l: l + [Link(o, j, d)]), joined(n, i, nodes))


def both_linked(a, i, b, j, nodes):
    once = linked(a, i, b, j, Outgoing, nodes)
    return once if i == j else linked(b, j, a, i, Incoming, once)


def unlinked(i, j, d, nodes):
    return changed(named(i), relinked(lambda l: taken(links_to(j, d), l)), nodes)


def both_unlinked(i, j, nodes):
    once = unlinked(i, j, Outgoing, nodes)
    return once if i == j else unlinked(j, i, Incoming, once)


def all_unlinked(i, ks, nodes):
    for k in ks:
        nodes = unlinked(k.index, i, opposite(k.direction), nodes)
    return nodes


def weighed(w):
    return lambda x: x._replace(weight=w)


def arc_of(i, j, d):
    return between(i, j) if d == Outgoing else between(j, i)


def all_taken(i, ks, arcs):
    for k in ks:
        arcs = taken(arc_of(i, k.index, k.direction), arcs)
    return arcs


def with_tables(m, nodes, arcs):
    return Model(nodes, arcs, m.node_places, m.arc_places)


def new_keys(i, j, nodes):
    return (0 if has(named(i), nodes) else 1) + (0 if i == j or has(named(j), nodes) else 1)


def node_added_at(m, n, i):
    if has(named(i), m.nodes) or len(m.nodes) < m.node_places:
        return ("ok", n), with_tables(m, joined(n, i, m.nodes), m.arcs)
    return ("err", 2), m


def new_edge_added_at(m, a, i, b, j, w):
    if len(m.nodes) + new_keys(i, j, m.nodes) <= m.node_places:
        if len(m.arcs) < m.arc_places:
            return ("ok", None), with_tables(m, both_linked(a, i, b, j, m.nodes), m.arcs + [Arc(a, i, b, j, w)])
        return ("err", 3), m
    return ("err", 2), m


def edge_put_at(m, a, i, b, j, w, old):
    if old is not None:
        return ("ok", old), with_tables(m, m.nodes, changed(between(i, j), weighed(w), m.arcs))
    return new_edge_added_at(m, a, i, b, j, w)


def edge_added_at(m, a, i, b, j, w):
    return edge_put_at(m, a, i, b, j, w, weight_at(i, j, m.arcs))


def edge_removed_at(m, i, j):
    return weight_at(i, j, m.arcs), with_tables(m, both_unlinked(i, j, m.nodes), taken(between(i, j), m.arcs))


def node_removed_at(m, i):
    if has(named(i), m.nodes):
        ks = links_at(i, m.nodes)
        return True, with_tables(m, all_unlinked(i, ks, taken(named(i), m.nodes)), all_taken(i, ks, m.arcs))
    return False, m


def edited(ix, m, e):
    if e[0] == "n":
        r, m = node_added_at(m, e[1], ix(e[1]))
        return ("g" if r == ("ok", e[1]) else "f%d" % r[1]), m
    if e[0] == "a":
        r, m = edge_added_at(m, e[1], ix(e[1]), e[2], ix(e[2]), e[3])
        return ("f%d" % r[1] if r[0] == "err" else "new" if r[1] is None else "w %d" % r[1]), m
    if e[0] == "r":
        r, m = node_removed_at(m, ix(e[1]))
        return ("gone" if r else "absent"), m
    r, m = edge_removed_at(m, ix(e[1]), ix(e[2]))
    return ("absent" if r is None else "w %d" % r), m


def built(nodes, arcs):
    return Model([], [], nodes, arcs)


# ---- Shown
def nodes_shown(m):
    return [x.key for x in m.nodes]


def all_edges_shown(m):
    return [(x.source, x.target, x.weight) for x in m.arcs]


def shows(i, d):
    return lambda k: k.direction == d or k.index == i


def links_shown(m, i, d):
    return kept(shows(i, d), links_at(i, m.nodes))


def neighbors_shown(ix, m, a, d):
    return [k.key for k in links_shown(m, ix(a), d)]


def with_ends(a, b, w):
    return None if w is None else (a, b, w)


def edge_of(a, i, d, arcs, k):
    if d == Outgoing:
        return with_ends(a, k.key, weight_at(i, k.index, arcs))
    return with_ends(k.key, a, weight_at(k.index, i, arcs))


def edges_shown(ix, m, a, d):
    return present([edge_of(a, ix(a), d, m.arcs, k) for k in links_shown(m, ix(a), d)])


# ---- the laws, tested
def due(i, j, d, arcs):
    if d == Outgoing:
        return sum(map(between(i, j), arcs))
    return 0 if i == j else sum(map(between(j, i), arcs))


def sound(ix, m, keys):
    indices = [ix(k) for k in keys]
    return (
        len(m.nodes) <= m.node_places
        and len(m.arcs) <= m.arc_places
        and all(sum(map(named(i), m.nodes)) <= 1 for i in indices)
        and all(sum(map(between(i, j), m.arcs)) <= 1 for i in indices for j in indices)
        and all(sum(map(links_to(j, d), links_at(i, m.nodes))) == due(i, j, d, m.arcs) for i in indices for j in indices for d in "oi")
        and all(x.index == ix(x.key) and all(k.index == ix(k.key) for k in x.links) for x in m.nodes)
        and all(x.source_index == ix(x.source) and x.target_index == ix(x.target) for x in m.arcs)
        and all(sorted(edges_shown(ix, m, a, d)) == sorted(t for t in all_edges_shown(m) if t["oi".index(d)] == a) for a in keys for d in "oi")
        and all(len(edges_shown(ix, m, a, d)) == len(neighbors_shown(ix, m, a, d)) for a in keys for d in "oi")
    )


# ---- the records
def replay(line, tested):
    w = line.split()
    np, ap, k = map(int, w[1:4])
    at, edits = 4, []
    for _ in range(k):
        n = {"n": 1, "a": 3, "r": 1, "x": 2}[w[at]]
        edits.append([w[at]] + [int(x) for x in w[at + 1:at + 1 + n]])
        at += 1 + n
    keys = sorted({x for e in edits for x in e[1:3 if e[0] in "ax" else 2]})

    def ix(n):
        return 7 * n + 3

    m, answers = built(np, ap), []
    for e in edits:
        r, m = edited(ix, m, e)
        answers.append(r)
        if tested and not sound(ix, m, keys):
            sys.exit("a law fails: " + line)

    def ts(l):
        return [str(len(l))] + ["%s %s %s" % t for t in l]

    out = w[:at] + ["|", "answers"] + answers + ["|", "nodes", str(len(m.nodes))]
    for x in m.nodes:
        out += [str(x.key), str(len(x.links))] + ["%s %s" % (k.key, k.direction) for k in x.links]
        out += ts(edges_shown(ix, m, x.key, Outgoing)) + ts(edges_shown(ix, m, x.key, Incoming))
    out += ["|", "arcs"] + ts(all_edges_shown(m))
    return " ".join(out)


sys.setrecursionlimit(100000)
for name in sys.argv[1:]:
    lines = open(name).read().splitlines()
    same = 0
    for n, line in enumerate(lines):
        got = replay(line, n % 10 == 0)
        if got == line:
            same += 1
        elif same == n:
            print("line %d\n  recorded %s\n  model    %s" % (n + 1, line, got))
    print("%s: %d of %d records agree" % (name, same, len(lines)))
