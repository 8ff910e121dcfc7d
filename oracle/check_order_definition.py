#!/usr/bin/env python3
"""Holds the definition of the greedy order against recorded orders of petgraph's good_node_sequence.

The first part is the antt definitions of network and greedy_order (Part1Degrees, Part3Order), line by line, under the same names.
The second part is petgraph's feedback_arc_set.rs in Python, for networks that were not recorded.

    check_order_definition.py FILE...   recorded orders, a line each:
        order M  source target (M times)  T  node (T times)  H  position of a held arc (H times)
    check_order_definition.py           no files: every network on three nodes, and random ones with loops and repeated arcs
"""
import itertools
import random
import sys

# ---- the definitions -------------------------------------------------------


def count(test, xs):
    return sum(1 for x in xs if test(x))


def keep(test, xs):
    return [x for x in xs if test(x)]


def without(x, ys):
    return [y for y in ys if y != x]


def meet(x, met):
    return met if x in met else met + [x]


def touched(arcs):
    met = []
    for a in arcs:
        met = meet(a[1], meet(a[0], met))
    return met


def out_degree(arcs, untaken, x):
    return count(lambda a: a[0] == x and a[1] in untaken, arcs)


def in_degree(arcs, untaken, x):
    return count(lambda a: a[1] == x and a[0] in untaken, arcs)


def out_neighbours(arcs, x):
    return [a[1] for a in arcs if a[0] == x]


def in_neighbours(arcs, x):
    return [a[0] for a in arcs if a[1] == x]


def is_sink(arcs, untaken, x):
    return out_degree(arcs, untaken, x) == 0


def is_source(arcs, untaken, x):
    return not is_sink(arcs, untaken, x) and in_degree(arcs, untaken, x) == 0


def has_difference(arcs, untaken, x):
    return not is_sink(arcs, untaken, x) and not in_degree(arcs, untaken, x) == 0


def below(arcs, untaken, x, y):
    return (out_degree(arcs, untaken, x) + in_degree(arcs, untaken, y)
            < out_degree(arcs, untaken, y) + in_degree(arcs, untaken, x))


def is_highest(arcs, untaken, x):
    return has_difference(arcs, untaken, x) and count(
        lambda y: has_difference(arcs, untaken, y) and below(arcs, untaken, x, y), untaken) == 0


def sinks(arcs, untaken):
    return keep(lambda x: is_sink(arcs, untaken, x), untaken)


def source_nodes(arcs, untaken):
    return keep(lambda x: is_source(arcs, untaken, x), untaken)


def highest_class(arcs, untaken):
    return keep(lambda x: is_highest(arcs, untaken, x), untaken)


def to_front(y, untaken):
    return [y] + without(y, untaken) if y in untaken else untaken


def all_to_front(ys, untaken):
    for y in ys:
        untaken = to_front(y, untaken)
    return untaken


def after_taking(arcs, x, untaken):
    return all_to_front(in_neighbours(arcs, x), all_to_front(out_neighbours(arcs, x), without(x, untaken)))


# a progress is (untaken, head, tail)
def to_head(arcs, x, p):
    return (after_taking(arcs, x, p[0]), p[1] + [x], p[2])


def to_tail(arcs, x, p):
    return (after_taking(arcs, x, p[0]), p[1], [x] + p[2])


def take_front(take, cls, p):
    return take(cls[0], p) if cls else p


def take_sinks(arcs, n, p):
    for _ in range(n):
        p = take_front(lambda x, q: to_tail(arcs, x, q), sinks(arcs, p[0]), p)
    return p


def take_sources(arcs, n, p):
    for _ in range(n):
        p = take_front(lambda x, q: to_head(arcs, x, q), source_nodes(arcs, p[0]), p)
    return p


def all_sinks(arcs, p):
    return take_sinks(arcs, len(p[0]), p)


def all_sources(arcs, p):
    return take_sources(arcs, len(p[0]), p)


def one_highest(arcs, p):
    return take_front(lambda x, q: to_head(arcs, x, q), highest_class(arcs, p[0]), p)


def round_(arcs, p):
    return one_highest(arcs, all_sources(arcs, all_sinks(arcs, p)))


def rounds(arcs, n, p):
    for _ in range(n):
        p = round_(arcs, p)
    return p


def greedy_order(arcs):
    p = rounds(arcs, len(touched(arcs)), (list(reversed(touched(arcs))), [], []))
    return p[1] + p[2]


def place(order, x):
    return order.index(x) if x in order else len(order)


def held(order, a):
    return place(order, a[0]) >= place(order, a[1])


# ---- petgraph's good_node_sequence, with lists in place of linked lists ------


def good_node_sequence(edges):
    lookup, out_edges, in_edges, graph_ix = {}, [], [], []

    def entry(g):
        if g not in lookup:
            lookup[g] = len(graph_ix)
            graph_ix.append(g)
            out_edges.append([])
            in_edges.append([])
        return lookup[g]

    for s, t in edges:
        i = entry(s)
        j = entry(t)
        out_edges[i].append(j)
        in_edges[j].append(i)
    out_degree = [len(e) for e in out_edges]
    in_degree = [len(e) for e in in_edges]
    buckets = {}
    in_list = [False] * len(graph_ix)

    def suitable(i):
        if out_degree[i] == 0:
            key = 'sinks'
        elif in_degree[i] == 0:
            key = 'sources'
        else:
            key = out_degree[i] - in_degree[i]
        return buckets.setdefault(key, [])

    def push_front(i):
        suitable(i).insert(0, i)
        in_list[i] = True

    def update(i):
        for j in out_edges[i]:
            if j == i or not in_list[j]:
                continue
            suitable(j).remove(j)
            in_degree[j] -= 1
            push_front(j)
        for j in in_edges[i]:
            if j == i or not in_list[j]:
                continue
            suitable(j).remove(j)
            out_degree[j] -= 1
            push_front(j)

    for i in range(len(graph_ix)):
        push_front(i)
    s1, s2 = [], []
    while True:
        moved = False
        while buckets.get('sinks'):
            i = buckets['sinks'].pop(0)
            in_list[i] = False
            moved = True
            update(i)
            s2.insert(0, graph_ix[i])
        while buckets.get('sources'):
            i = buckets['sources'].pop(0)
            in_list[i] = False
            moved = True
            update(i)
            s1.append(graph_ix[i])
        full = [k for k, v in buckets.items() if isinstance(k, int) and v]
        if full:
            i = buckets[max(full)].pop(0)
            in_list[i] = False
            moved = True
            update(i)
            s1.append(graph_ix[i])
        if not moved:
            return s1 + s2


# ---- comparing -------------------------------------------------------------


def recorded(path):
    for number, line in enumerate(open(path), 1):
        words = line.split()
        if not words or words[0] != 'order':
            continue
        n = [int(w) for w in words[1:]]
        m = n[0]
        arcs = [(n[1 + 2 * k], n[2 + 2 * k]) for k in range(m)]
        t = n[1 + 2 * m]
        order = n[2 + 2 * m:2 + 2 * m + t]
        h = n[2 + 2 * m + t]
        positions = n[3 + 2 * m + t:]
        assert len(order) == t and len(positions) == h, (path, number)
        yield number, arcs, order, positions


def main():
    if len(sys.argv) > 1:
        for path in sys.argv[1:]:
            lines = arcs_seen = most = 0
            for number, arcs, order, positions in recorded(path):
                mine = greedy_order(arcs)
                holds = [k for k, a in enumerate(arcs) if held(mine, a)]
                if mine != order or holds != positions:
                    sys.exit(f'{path}:{number}: differs\n{arcs}\n{order}\n{mine}')
                lines += 1
                arcs_seen += len(arcs)
                most = max(most, len(order))
            print(f'{path}: {lines} orders agree ({arcs_seen} arcs, up to {most} nodes)')
        return
    pairs = [(s, t) for s in range(3) for t in range(3)]
    seen = 0
    for k in range(len(pairs) + 1):
        for arcs in itertools.combinations(pairs, k):
            assert greedy_order(list(arcs)) == good_node_sequence(arcs), arcs
            seen += 1
    print(f'{seen} networks on three nodes agree')
    rng = random.Random(1993)
    for k in range(4000):
        nodes = rng.randint(1, 9)
        arcs = [(rng.randrange(nodes), rng.randrange(nodes)) for _ in range(rng.randint(0, 3 * nodes))]
        assert greedy_order(arcs) == good_node_sequence(arcs), arcs
    print('4000 random networks agree')


main()
