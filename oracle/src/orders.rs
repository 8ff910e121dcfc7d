// Networks and the orders that petgraph's code gives them.

use std::io::{self, Write};

use crate::feedback_arc_set::greedy_feedback_arc_set;
use crate::random::Random;

pub type Arcs = Vec<(usize, usize)>;

/// One line: the arcs in sequence, the order, the positions of the held arcs.
pub fn write_order(out: &mut impl Write, arcs: &[(usize, usize)]) -> io::Result<()> {
    let (order, held) = greedy_feedback_arc_set(arcs);
    write!(out, "order {}", arcs.len())?;
    for (source, target) in arcs {
        write!(out, " {source} {target}")?;
    }
    for list in [order, held] {
        write!(out, " {}", list.len())?;
        for number in list {
            write!(out, " {number}")?;
        }
    }
    writeln!(out)
}

/// All networks on the nodes 0, 1, 2 without repeated arcs: bit 3 i + j of the
/// mask is the arc i→j, arcs in sequence from the low bit up.
pub fn three(out: &mut impl Write) -> io::Result<()> {
    for mask in 0..512 {
        let arcs: Arcs = (0..9)
            .filter(|bit| mask >> bit & 1 == 1)
            .map(|bit| (bit / 3, bit % 3))
            .collect();
        write_order(out, &arcs)?;
    }
    Ok(())
}

/// `count` random networks with up to `max_nodes` nodes.
pub fn random(out: &mut impl Write, count: usize, seed: u64, max_nodes: usize) -> io::Result<()> {
    for case in 0..count {
        let mut random = Random::new(seed, case as u64);
        write_order(out, &network(&mut random, case, max_nodes))?;
    }
    Ok(())
}

fn network(random: &mut Random, case: usize, max_nodes: usize) -> Arcs {
    let max = if case / 12 % 2 == 0 {
        max_nodes
    } else {
        max_nodes.min(10)
    };
    let nodes = random.from_to(1, max).max(random.from_to(1, max));
    let mut arcs = match case % 12 {
        0 => any(random, nodes),
        1 => few_nodes(random),
        2 => two_way(random, nodes),
        3 => grid(random, max),
        4 => ring(random, nodes),
        5 => star(random, nodes),
        6 => without_loops_and_opposites(random, nodes),
        7 => acyclic(random, nodes),
        8 => rings_in_a_chain(random, nodes),
        9 => tournament(random, nodes.min(9)),
        10 => many_loops(random, nodes),
        _ => any(random, nodes),
    };
    if random.chance(1, 4) {
        repeat_some(random, &mut arcs);
    }
    if random.chance(1, 2) {
        random.shuffle(&mut arcs);
    }
    renumber(random, arcs)
}

/// Arcs between any ends, loops and repeats among them.
fn any(random: &mut Random, nodes: usize) -> Arcs {
    let arcs = random.from_to(0, nodes * 5 / 2 + 1);
    (0..arcs)
        .map(|_| (random.below(nodes), random.below(nodes)))
        .collect()
}

/// Many arcs on up to four nodes.
fn few_nodes(random: &mut Random) -> Arcs {
    let nodes = random.from_to(1, 4);
    let arcs = random.from_to(1, 24);
    (0..arcs)
        .map(|_| (random.below(nodes), random.below(nodes)))
        .collect()
}

/// Most streets have an arc either way.
fn two_way(random: &mut Random, nodes: usize) -> Arcs {
    let mut arcs = Vec::new();
    for _ in 0..random.from_to(1, nodes + nodes / 4 + 1) {
        let (a, b) = (random.below(nodes), random.below(nodes));
        arcs.push((a, b));
        if random.chance(4, 5) {
            arcs.push((b, a));
        }
    }
    arcs
}

/// A grid of streets: one way in alternating sense, or some of them both ways.
fn grid(random: &mut Random, max: usize) -> Arcs {
    let width = random.from_to(1, 6.min(max));
    let height = random.from_to(1, (max / width).min(6));
    let both_ways = random.below(4);
    let mut arcs = Vec::new();
    for y in 0..height {
        for x in 0..width {
            let here = y * width + x;
            let mut streets = Vec::new();
            if x + 1 < width {
                streets.push((here, here + 1, y % 2 == 0));
            }
            if y + 1 < height {
                streets.push((here, here + width, x % 2 == 1));
            }
            for (a, b, forth) in streets {
                arcs.push(if forth { (a, b) } else { (b, a) });
                if random.chance(both_ways, 4) {
                    arcs.push(if forth { (b, a) } else { (a, b) });
                }
            }
        }
    }
    arcs
}

/// One ring through all nodes, and a few chords.
fn ring(random: &mut Random, nodes: usize) -> Arcs {
    let mut arcs: Arcs = (0..nodes).map(|i| (i, (i + 1) % nodes)).collect();
    for _ in 0..random.below(4) {
        arcs.push((random.below(nodes), random.below(nodes)));
    }
    arcs
}

/// A hub with arms in, out or both ways, sometimes a loop at the hub.
fn star(random: &mut Random, nodes: usize) -> Arcs {
    let hub = random.below(nodes);
    let kind = random.below(4);
    let mut arcs = Vec::new();
    for end in (0..nodes).filter(|&end| end != hub) {
        let arm = if kind == 3 { random.below(3) } else { kind };
        if arm != 0 {
            arcs.push((end, hub));
        }
        if arm != 1 {
            arcs.push((hub, end));
        }
    }
    if random.chance(1, 3) {
        arcs.push((hub, hub));
    }
    arcs
}

/// At most one arc between two nodes, in one of the two senses.
fn without_loops_and_opposites(random: &mut Random, nodes: usize) -> Arcs {
    let density = random.from_to(1, 4);
    let mut arcs = Vec::new();
    for a in 0..nodes {
        for b in 0..a {
            if random.chance(density, nodes + 1) {
                arcs.push(if random.chance(1, 2) { (a, b) } else { (b, a) });
            }
        }
    }
    arcs
}

/// Arcs from lower to higher numbers only.
fn acyclic(random: &mut Random, nodes: usize) -> Arcs {
    let mut arcs = Vec::new();
    for _ in 0..random.from_to(0, nodes * 2) {
        let (a, b) = (random.below(nodes), random.below(nodes));
        if a != b {
            arcs.push((a.min(b), a.max(b)));
        }
    }
    arcs
}

/// Rings of a few nodes, each with an arc to the next ring.
fn rings_in_a_chain(random: &mut Random, nodes: usize) -> Arcs {
    let mut arcs = Vec::new();
    let mut first = 0;
    while first < nodes {
        let length = random.from_to(1, 5).min(nodes - first);
        for i in 0..length {
            arcs.push((first + i, first + (i + 1) % length));
        }
        if first + length < nodes {
            arcs.push((first + random.below(length), first + length));
        }
        first += length;
    }
    arcs
}

/// One arc between every two nodes.
fn tournament(random: &mut Random, nodes: usize) -> Arcs {
    let mut arcs = Vec::new();
    for a in 0..nodes {
        for b in 0..a {
            arcs.push(if random.chance(1, 2) { (a, b) } else { (b, a) });
        }
    }
    arcs
}

/// Random arcs, and loops at about half of the nodes, some of them repeated.
fn many_loops(random: &mut Random, nodes: usize) -> Arcs {
    let mut arcs = any(random, nodes);
    for node in 0..nodes {
        if random.chance(1, 2) {
            arcs.push((node, node));
        }
        if random.chance(1, 8) {
            arcs.push((node, node));
        }
    }
    arcs
}

fn repeat_some(random: &mut Random, arcs: &mut Arcs) {
    for _ in 0..random.below(arcs.len() / 3 + 2) {
        if !arcs.is_empty() {
            let again = arcs[random.below(arcs.len())];
            arcs.push(again);
        }
    }
}

/// Other node numbers: mostly small ones in another sequence, sometimes spread
/// over all 32-bit numbers or at their upper end.
fn renumber(random: &mut Random, arcs: Arcs) -> Arcs {
    let count = arcs.iter().map(|&(a, b)| a.max(b) + 1).max().unwrap_or(0);
    let mut names: Vec<usize> = (0..count).collect();
    match random.below(10) {
        0..=3 => {}
        4..=7 => random.shuffle(&mut names),
        8 => {
            let top = u32::MAX as usize;
            names = names.iter().map(|i| top - i).collect();
            random.shuffle(&mut names);
        }
        _ => {
            // Steps of at least 1, so that no number comes twice.
            let step = u32::MAX as usize / count.max(1);
            names = names
                .iter()
                .map(|i| i * step + random.below(step))
                .collect();
            random.shuffle(&mut names);
        }
    }
    arcs.iter().map(|&(a, b)| (names[a], names[b])).collect()
}
