// Recorded answers of petgraph's own code, from a seed. README.md says more.

extern crate alloc;

mod edits;
#[allow(dead_code)]
mod feedback_arc_set;
mod graph;
#[allow(dead_code)]
mod graphmap;
mod orders;
mod random;

use std::io::{self, BufWriter, Write};

const USAGE: &str = "usage: oracle orders-three
       oracle orders-random COUNT SEED MAX_NODES
       oracle edits COUNT SEED MAX_EDITS
       oracle orders-edits COUNT SEED MAX_EDITS
       oracle order SOURCE TARGET ..";

fn main() -> io::Result<()> {
    let words: Vec<String> = std::env::args().skip(1).collect();
    let numbers: Option<Vec<usize>> = words.iter().skip(1).map(|w| w.parse().ok()).collect();
    let call = words.first().map(String::as_str);
    let mut out = BufWriter::new(io::stdout().lock());
    match (call, numbers.as_deref()) {
        (Some("orders-three"), Some([])) => orders::three(&mut out)?,
        (Some("orders-random"), Some(&[count, seed, max_nodes])) if max_nodes > 0 => {
            orders::random(&mut out, count, seed as u64, max_nodes)?
        }
        (Some("edits"), Some(&[count, seed, max_edits])) => {
            edits::edits(&mut out, count, seed as u64, max_edits)?
        }
        (Some("orders-edits"), Some(&[count, seed, max_edits])) => {
            edits::orders(&mut out, count, seed as u64, max_edits)?
        }
        (Some("order"), Some(ends)) if ends.len() % 2 == 0 => {
            let arcs: Vec<_> = ends.chunks(2).map(|arc| (arc[0], arc[1])).collect();
            orders::write_order(&mut out, &arcs)?
        }
        _ => {
            eprintln!("{USAGE}");
            std::process::exit(2);
        }
    }
    out.flush()
}
