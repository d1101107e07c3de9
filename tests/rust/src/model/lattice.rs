//! "Lattice engine": nodes, edges, crossings and node bytes. `tops` is the M of each level part: a part of a pair counts "in lattice, node
//! number and betterment like a wish's level" (order 2).

use super::best::betters;

pub const MOST_NODES: u64 = 32_768;

/// "their number the product of the M + 1"; none where it is above 32,768.
pub fn nodes(tops: &[u32]) -> Option<usize> {
    let mut product = 1u64;
    for top in tops {
        product *= u64::from(*top) + 1;
        if product > MOST_NODES {
            return None;
        }
    }
    usize::try_from(product).ok()
}

/// How much one level of each part adds to a node's number: "the first wish as highest digit, in bases M + 1".
pub fn weights(tops: &[u32]) -> Vec<usize> {
    let mut weights = vec![1; tops.len()];
    for i in (1..tops.len()).rev() {
        weights[i - 1] = weights[i] * (tops[i] as usize + 1);
    }
    weights
}

pub fn node(tops: &[u32], levels: &[u32]) -> usize {
    weights(tops).iter().zip(levels).map(|(weight, level)| weight * *level as usize).sum()
}

pub fn levels(tops: &[u32], node: usize) -> Vec<u32> {
    weights(tops).iter().zip(tops).map(|(weight, top)| (node / weight % (*top as usize + 1)) as u32).collect()
}

/// "From each node leaves one edge for each wish whose level there is below M."
fn edges<'a>(tops: &'a [u32], weights: &'a [usize], node: usize) -> impl Iterator<Item = usize> + 'a {
    let below = move |i: &usize| node / weights[*i] % (tops[*i] as usize + 1) < tops[*i] as usize;
    (0..tops.len()).filter(below).map(move |i| node + weights[i])
}

/// "each node's byte is 0 unreached, 1 held and not bettered, 2 bettered and not held, 3 both": whatever lies further along edges
/// from a held node is bettered by it. `rows` are lists of level parts; there are at most 32,768 nodes.
pub fn bytes(tops: &[u32], rows: &[Vec<u32>]) -> Vec<u8> {
    let weights = weights(tops);
    let mut bytes = vec![0; nodes(tops).expect("few nodes")];
    let mut left: Vec<usize> = vec![];
    for row in rows {
        let held = node(tops, row);
        if bytes[held] & 1 == 0 {
            bytes[held] |= 1;
            left.push(held);
        }
    }
    while let Some(from) = left.pop() {
        for to in edges(tops, &weights, from) {
            if bytes[to] & 2 == 0 {
                bytes[to] |= 2;
                left.push(to);
            }
        }
    }
    bytes
}

/// The same by the definition, node by node against every row.
pub fn bytes_node_by_node(tops: &[u32], rows: &[Vec<u32>]) -> Vec<u8> {
    let byte = |node: usize| {
        let here = levels(tops, node);
        let held = rows.contains(&here);
        let bettered = rows.iter().any(|row| betters(row, &here));
        u8::from(held) | u8::from(bettered) << 1
    };
    (0..nodes(tops).expect("few nodes")).map(byte).collect()
}

/// "each edge that leaves a reached node, once; the number of these edges is the log's crossings"
pub fn crossings(tops: &[u32], bytes: &[u8]) -> u32 {
    let weights = weights(tops);
    let reached = (0..bytes.len()).filter(|node| bytes[*node] != 0);
    reached.map(|node| edges(tops, &weights, node).count() as u32).sum()
}

/// All edges of the lattice: as many as are crossed when node 0 is held.
pub fn bound(tops: &[u32]) -> u32 {
    let nodes = nodes(tops).expect("few nodes") as u32;
    tops.iter().map(|top| nodes / (top + 1) * top).sum()
}
