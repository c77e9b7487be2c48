//! Set S with more and more before it, and statements that grow: how a cost changes with rows, rules and tokens.

use crate::bodies::numbered;

/// Set S of the paper as words, after `before`.
pub fn set_s(before: Vec<u32>) -> Vec<u32> {
    let set: [(u32, &[[u32; 2]]); 9] = [
        (2, &[[0, 10]]),
        (2, &[[0, 11]]),
        (3, &[[0, 12]]),
        (4, &[[0, 13]]),
        (3, &[[1, 4]]),
        (2, &[[0, 14], [1, 2]]),
        (2, &[[0, 5], [1, 2], [0, 7], [1, 2], [0, 6]]),
        (2, &[[1, 3], [0, 8], [1, 3]]),
        (2, &[[1, 3], [0, 9], [1, 3]]),
    ];
    let rules = set.iter().flat_map(|(result, body)| numbered(*result, body));
    before.into_iter().chain(rules).collect()
}

/// The ten-pass sentence, put so many times over into its own second half: each time adds four tokens.
pub fn nested(depth: usize) -> Vec<u32> {
    [vec![1], [5, 10, 7].repeat(depth), vec![11], vec![6; depth]].concat()
}

/// Rule 6 of set S within itself: all frames, and one tree.
pub fn chained(depth: usize) -> Vec<u32> {
    [vec![1], vec![14; depth], vec![10]].concat()
}

/// Rules with 32 constants each: 32 rows for one rule.
pub fn rows_before(count: u32) -> Vec<u32> {
    let rule = |k: u32| numbered(2, &[vec![[0, 1000 + k]], vec![[0, 999]; 31]].concat());
    (0..count).flat_map(rule).collect()
}

/// Rules of one constant: a row at node 0 for each.
pub fn root_rows_before(count: u32) -> Vec<u32> {
    (0..count).flat_map(|k| numbered(2, &[[0, 1000 + k]])).collect()
}

/// Conversions between typecodes that nothing else has: rules without rows.
pub fn rules_before(count: u32) -> Vec<u32> {
    (0..count).flat_map(|k| numbered(30_000 + k, &[[1, 40_000 + k]])).collect()
}
