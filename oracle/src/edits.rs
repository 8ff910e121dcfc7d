// Lists of edits, what petgraph's map answers to each, and the map that they
// leave. petgraph refuses nothing: the refusals are this project's own rule,
// and a refused edit is not passed on.

use std::fmt;
use std::io::{self, Write};

use crate::graph::Direction::{Incoming, Outgoing};
use crate::graphmap::DiGraphMap;
use crate::orders::{write_order, Arcs};
use crate::random::Random;

#[derive(Clone, Copy)]
enum Edit {
    AddNode(u32),
    AddEdge(u32, u32, u32),
    RemoveNode(u32),
    RemoveEdge(u32, u32),
}

impl fmt::Display for Edit {
    fn fmt(&self, f: &mut fmt::Formatter) -> fmt::Result {
        match self {
            Edit::AddNode(key) => write!(f, "n {key}"),
            Edit::AddEdge(a, b, weight) => write!(f, "a {a} {b} {weight}"),
            Edit::RemoveNode(key) => write!(f, "r {key}"),
            Edit::RemoveEdge(a, b) => write!(f, "x {a} {b}"),
        }
    }
}

enum Answer {
    Granted,
    Refused(u32),
    New,
    Weight(u32),
    Gone,
    Absent,
}

impl fmt::Display for Answer {
    fn fmt(&self, f: &mut fmt::Formatter) -> fmt::Result {
        match self {
            Answer::Granted => write!(f, "g"),
            Answer::Refused(number) => write!(f, "f{number}"),
            Answer::New => write!(f, "new"),
            Answer::Weight(weight) => write!(f, "w {weight}"),
            Answer::Gone => write!(f, "gone"),
            Answer::Absent => write!(f, "absent"),
        }
    }
}

/// petgraph's map, with the number of node and arc places that it may use.
struct Limited {
    map: DiGraphMap<u32, u32>,
    node_places: usize,
    arc_places: usize,
}

impl Limited {
    fn has_node(&self, key: u32) -> bool {
        self.map.nodes().any(|node| node == key)
    }

    fn free_nodes(&self) -> usize {
        self.node_places - self.map.node_count()
    }

    /// The number with which an edit is refused: 2 where its new keys outnumber
    /// the free node places, else 3 where its arc is new and finds no place.
    fn refusal(&self, edit: Edit) -> Option<u32> {
        match edit {
            Edit::AddNode(key) if !self.has_node(key) && self.free_nodes() == 0 => Some(2),
            Edit::AddEdge(a, b, _) if !self.map.contains_edge(a, b) => {
                let mut new_keys = usize::from(!self.has_node(a));
                if a != b {
                    new_keys += usize::from(!self.has_node(b));
                }
                if new_keys > self.free_nodes() {
                    Some(2)
                } else if self.map.edge_count() == self.arc_places {
                    Some(3)
                } else {
                    None
                }
            }
            _ => None,
        }
    }

    fn edit(&mut self, edit: Edit) -> Answer {
        if let Some(number) = self.refusal(edit) {
            return Answer::Refused(number);
        }
        match edit {
            Edit::AddNode(key) => {
                assert_eq!(self.map.add_node(key), key);
                Answer::Granted
            }
            Edit::AddEdge(a, b, weight) => match self.map.add_edge(a, b, weight) {
                Some(old) => Answer::Weight(old),
                None => Answer::New,
            },
            Edit::RemoveNode(key) => match self.map.remove_node(key) {
                true => Answer::Gone,
                false => Answer::Absent,
            },
            Edit::RemoveEdge(a, b) => match self.map.remove_edge(a, b) {
                Some(weight) => Answer::Weight(weight),
                None => Answer::Absent,
            },
        }
    }

    fn write(&self, out: &mut impl Write) -> io::Result<()> {
        write!(out, " | nodes {}", self.map.node_count())?;
        for node in self.map.nodes() {
            let links = self.map.links(node);
            write!(out, " {node} {}", links.len())?;
            for (other, outgoing) in links {
                write!(out, " {other} {}", if outgoing { "o" } else { "i" })?;
            }
            for dir in [Outgoing, Incoming] {
                let edges: Vec<_> = self.map.edges_directed(node, dir).collect();
                write!(out, " {}", edges.len())?;
                for (a, b, weight) in edges {
                    write!(out, " {a} {b} {weight}")?;
                }
            }
        }
        write!(out, " | arcs {}", self.map.edge_count())?;
        for (a, b, weight) in self.map.all_edges() {
            write!(out, " {a} {b} {weight}")?;
        }
        writeln!(out)
    }

    /// The questions whose answers follow from what is written: a record is
    /// made only where petgraph's answers agree with each other.
    fn questions_agree(&self, keys: &[u32]) {
        assert_eq!(self.map.nodes().count(), self.map.node_count());
        assert_eq!(self.map.all_edges().count(), self.map.edge_count());
        for &a in keys {
            for dir in [Outgoing, Incoming] {
                let ends = self.map.edges_directed(a, dir);
                let ends = ends.map(|(x, y, _)| if dir == Outgoing { y } else { x });
                assert!(ends.eq(self.map.neighbors_directed(a, dir)));
            }
            if !self.has_node(a) {
                assert_eq!(self.map.neighbors_directed(a, Outgoing).count(), 0);
                assert_eq!(self.map.neighbors_directed(a, Incoming).count(), 0);
            }
            for &b in keys {
                let shown = self.map.all_edges().any(|(x, y, _)| (x, y) == (a, b));
                assert_eq!(self.map.contains_edge(a, b), shown);
            }
        }
    }
}

/// How the edits of one case are drawn.
struct Manner {
    edits: usize,
    keys: Vec<u32>,
    max_weight: usize,
    /// Of ten edits, how many remove something; in the later half `late`.
    early: usize,
    late: usize,
    /// Of ten new arcs, how many are loops, and how many have the hub as an end.
    loops: usize,
    hub: usize,
}

fn manner(random: &mut Random, case: usize, max_edits: usize) -> Manner {
    // Mostly short lists; four cases in twenty-four may be as long as is asked for.
    let max = if case / 4 % 6 == 0 {
        max_edits
    } else {
        max_edits.min(32)
    };
    let edits = random.from_to(5.min(max), max);
    let count = if random.chance(1, 2) {
        random.from_to(2, 7)
    } else {
        random.from_to(3, 5 + edits / 5)
    };
    let mut keys: Vec<u32> = (0..count as u32).collect();
    match random.below(8) {
        0 => keys.iter_mut().for_each(|key| *key = u32::MAX - *key),
        1 => {
            let step = u32::MAX / count as u32;
            keys.iter_mut()
                .for_each(|key| *key = *key * step + random.below(step as usize) as u32);
        }
        _ => {}
    }
    random.shuffle(&mut keys);
    Manner {
        edits,
        keys,
        max_weight: if random.chance(1, 20) {
            u32::MAX as usize
        } else {
            99
        },
        early: random.from_to(0, 3),
        late: random.from_to(1, 4),
        loops: random.below(4),
        hub: [0, 0, 3, 8][random.below(4)],
    }
}

fn places(random: &mut Random, case: usize) -> (usize, usize) {
    match case % 4 {
        0 => (random.from_to(2, 6), random.from_to(2, 10)),
        1 => (random.from_to(0, 16), random.from_to(0, 30)),
        _ => (4096, 16384),
    }
}

fn any_key(random: &mut Random, manner: &Manner) -> u32 {
    manner.keys[random.below(manner.keys.len())]
}

fn addition(random: &mut Random, manner: &Manner) -> Edit {
    if random.chance(1, 8) {
        return Edit::AddNode(any_key(random, manner));
    }
    let (mut a, mut b) = (any_key(random, manner), any_key(random, manner));
    if random.chance(manner.hub, 10) {
        if random.chance(1, 2) {
            a = manner.keys[0];
        } else {
            b = manner.keys[0];
        }
    }
    if random.chance(manner.loops, 10) {
        b = a;
    }
    Edit::AddEdge(a, b, random.from_to(0, manner.max_weight) as u32)
}

/// Mostly of something that is there.
fn removal(random: &mut Random, manner: &Manner, map: &DiGraphMap<u32, u32>) -> Edit {
    let arcs: Vec<_> = map.all_edges().map(|(a, b, _)| (a, b)).collect();
    if random.chance(1, 7) {
        return Edit::RemoveNode(any_key(random, manner));
    }
    if !arcs.is_empty() && random.chance(5, 6) {
        let (a, b) = arcs[random.below(arcs.len())];
        return Edit::RemoveEdge(a, b);
    }
    Edit::RemoveEdge(any_key(random, manner), any_key(random, manner))
}

/// The map that the edits of a case leave, the edits and the answers.
fn run(seed: u64, case: usize, max_edits: usize) -> (Limited, Vec<Edit>, Vec<Answer>) {
    let mut random = Random::new(seed, case as u64);
    let manner = manner(&mut random, case, max_edits);
    let (node_places, arc_places) = places(&mut random, case);
    let mut limited = Limited {
        map: DiGraphMap::new(),
        node_places,
        arc_places,
    };
    let (mut edits, mut answers) = (Vec::new(), Vec::new());
    for i in 0..manner.edits {
        let removals = if i * 2 < manner.edits {
            manner.early
        } else {
            manner.late
        };
        let edit = if random.chance(removals, 10) {
            removal(&mut random, &manner, &limited.map)
        } else {
            addition(&mut random, &manner)
        };
        edits.push(edit);
        answers.push(limited.edit(edit));
    }
    limited.questions_agree(&manner.keys);
    (limited, edits, answers)
}

/// `count` lists of up to `max_edits` edits, one line each.
pub fn edits(out: &mut impl Write, count: usize, seed: u64, max_edits: usize) -> io::Result<()> {
    for case in 0..count {
        let (limited, edits, answers) = run(seed, case, max_edits);
        write!(
            out,
            "edits {} {} {}",
            limited.node_places,
            limited.arc_places,
            edits.len()
        )?;
        for edit in edits {
            write!(out, " {edit}")?;
        }
        write!(out, " | answers")?;
        for answer in answers {
            write!(out, " {answer}")?;
        }
        limited.write(out)?;
    }
    Ok(())
}

/// The orders of the maps that these lists of edits leave, one line each.
pub fn orders(out: &mut impl Write, count: usize, seed: u64, max_edits: usize) -> io::Result<()> {
    for case in 0..count {
        let (limited, _, _) = run(seed, case, max_edits);
        let arcs = limited.map.all_edges();
        let arcs: Arcs = arcs.map(|(a, b, _)| (a as usize, b as usize)).collect();
        write_order(out, &arcs)?;
    }
    Ok(())
}
