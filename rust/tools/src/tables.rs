//! Slices for a build that are as long as the limits allow, and cut to what was built.

use jiehkavon::limits::{FRAME_WIDTH, MOST_CLONES, MOST_EDGES, MOST_NODES, ROW_WIDTH};
use jiehkavon::words::{build, Built};

/// The longest slices of nodes and of edges that a build makes use of.
pub fn longest() -> (Vec<u32>, Vec<u32>) {
    (vec![0; MOST_NODES], vec![0; MOST_EDGES * ROW_WIDTH])
}

/// The rows that were built, without the zeros after them.
pub fn cut(built: Built, nodes: &mut Vec<u32>, edges: &mut Vec<u32>) {
    nodes.truncate(built.nodes as usize);
    edges.truncate(ROW_WIDTH * built.edges as usize);
}

/// What the library builds of rules and commands, with frames that are enough for any, and its tables.
pub fn built(provable: u32, logic: u32, rules: &[u32], commands: &[u32]) -> (Built, Vec<u32>, Vec<u32>) {
    let (mut nodes, mut edges) = longest();
    let mut frames = vec![0; MOST_CLONES * FRAME_WIDTH];
    let built = build(provable, logic, rules, commands, &mut nodes, &mut edges, &mut frames);
    cut(built, &mut nodes, &mut edges);
    (built, nodes, edges)
}
