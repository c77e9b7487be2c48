//! Bodies of rules as words, with the variables of their slots and without.

/// The words of an item in a rule.
const ITEM: usize = 3;

/// The words of a rule whose slots have the variables 1, 2, 3 and so on. An item is told by its kind and its symbol.
pub fn numbered(result: u32, body: &[[u32; 2]]) -> Vec<u32> {
    let mut words = vec![result, body.len() as u32];
    let mut slots = 0;
    for &[kind, symbol] in body {
        slots += kind;
        words.extend([kind, symbol, kind * slots]);
    }
    words
}

/// Each rule of some words, its result, its length and the kinds and symbols of its items, as the published Rust is told one.
pub fn without_variables(rules: &[u32]) -> Vec<Vec<u32>> {
    let mut left = rules;
    let mut told = Vec::new();
    while let [result, length, rest @ ..] = left {
        let (items, rest) = rest.split_at(ITEM * *length as usize);
        let pairs = items.chunks_exact(ITEM).flat_map(|item| [item[0], item[1]]);
        told.push([*result, *length].into_iter().chain(pairs).collect());
        left = rest;
    }
    told
}

#[cfg(test)]
mod tests {
    use super::{numbered, without_variables};

    #[test]
    fn slots_are_numbered() {
        assert_eq!(numbered(2, &[]), [2, 0]);
        assert_eq!(numbered(2, &[[1, 3], [0, 7], [1, 3]]), [2, 3, 1, 3, 1, 0, 7, 0, 1, 3, 2]);
    }

    #[test]
    fn variables_are_taken_away() {
        let rules = [2, 1, 0, 10, 0, 3, 2, 1, 4, 9, 1, 4, 8];
        assert_eq!(without_variables(&rules), [vec![2, 1, 0, 10], vec![3, 2, 1, 4, 1, 4]]);
        assert!(without_variables(&[]).is_empty());
    }
}
