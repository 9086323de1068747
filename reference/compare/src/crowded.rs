//! Bundles that are hard to read: as slow as their sizes allow.

use reference::gen::Rng;

/// The trees in which the reader keeps the looks of a block: a pair's key,
/// 65,536 u + v, goes to the tree of its remainder.
const TREES: u64 = 7_919;

/// The first pairs of one remainder whose keys agree in so many low bits, which
/// choose the branches nearest to a tree's root.
pub fn in_one_tree(many: usize, low: u32) -> Vec<[u16; 2]> {
    let step = TREES << low;
    let keys = (0..).map(|turn| 5 + turn * step);
    let pairs = keys.take_while(|key| *key < 1 << 32);
    let pairs = pairs.map(|key| [(key >> 16) as u16, key as u16]);
    pairs.take(many).collect()
}

/// The pairs at one node, of which the other is any.
pub fn at_one_node(many: usize) -> Vec<[u16; 2]> {
    (0..many).map(|turn| [7, (turn * 5) as u16]).collect()
}

/// One pair again and again.
pub fn equal(many: usize) -> Vec<[u16; 2]> {
    vec![[1, 2]; many]
}

/// Pairs of nodes that no accepted grid has.
pub fn high(rng: &mut Rng, many: usize) -> Vec<[u16; 2]> {
    let mut node = || rng.between(4_096, 65_535) as u16;
    (0..many).map(|_| [node(), node()]).collect()
}

/// Pairs of nodes that an accepted grid may have.
pub fn low(rng: &mut Rng, many: usize) -> Vec<[u16; 2]> {
    let mut node = || rng.below(4_096) as u16;
    (0..many).map(|_| [node(), node()]).collect()
}

#[cfg(test)]
mod tests {
    use super::*;

    fn key([u, v]: [u16; 2]) -> u64 {
        u64::from(u) << 16 | u64::from(v)
    }

    #[test]
    fn pairs_of_one_tree() {
        for low in 0..6 {
            let pairs = in_one_tree(12_288, low);
            assert_eq!(pairs.len(), 12_288);
            for pair in pairs {
                assert_eq!(key(pair) % TREES, 5);
                assert_eq!(key(pair) % (1 << low), 5 % (1 << low));
            }
        }
    }

    #[test]
    fn pairs_above_the_nodes_of_a_grid() {
        let pairs = high(&mut Rng::new(1), 1_000);
        assert!(pairs.iter().flatten().all(|node| *node > 4_095));
    }
}
