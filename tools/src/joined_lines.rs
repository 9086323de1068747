//! Pieces of lines, put together.

use std::collections::HashMap;
use std::hash::Hash;

/// Pieces that hang together by equal ends.
pub struct JoinedLine {
    /// The pieces in turn, each with its end that is met first.
    pub pieces: Vec<(usize, usize)>,
    pub closed: bool,
}

/// Follows pieces over equal ends, each piece once: from free ends first.
pub fn joined_lines<K: Copy + Eq + Hash>(pieces: &[[K; 2]]) -> Vec<JoinedLine> {
    let mut having: HashMap<K, Vec<(usize, usize)>> = HashMap::new();
    for (at, ends) in pieces.iter().enumerate() {
        for (end, key) in ends.iter().enumerate() {
            having.entry(*key).or_default().push((at, end));
        }
    }
    let mut used = vec![false; pieces.len()];
    let mut found = Vec::new();
    let starts = (0..pieces.len()).flat_map(|at| [(at, 0), (at, 1)]);
    let free = |&(at, end): &(usize, usize)| having[&pieces[at][end]].len() % 2 == 1;
    let closed = (0..pieces.len()).map(|at| (at, 0));
    for start in starts.filter(free).chain(closed) {
        let mut next = Some(start);
        let mut line = Vec::new();
        while let Some((at, end)) = next.filter(|&(at, _)| !used[at]) {
            used[at] = true;
            line.push((at, end));
            let far = &having[&pieces[at][1 - end]];
            next = far.iter().copied().find(|&(other, _)| !used[other]);
        }
        if let (Some(&(first, from)), Some(&(last, to))) = (line.first(), line.last()) {
            let closed = pieces[first][from] == pieces[last][1 - to];
            found.push(JoinedLine {
                pieces: line,
                closed,
            });
        }
    }
    found
}
