//! Damage to words of every kind.

use super::tables::ROW;
use crate::random::Random;

/// Numbers at which some limit ends or a sum may overflow.
const EDGES: [u32; 28] = [
    0,
    1,
    2,
    3,
    4,
    5,
    6,
    31,
    32,
    33,
    254,
    255,
    256,
    2_047,
    2_048,
    2_049,
    32_769,
    8_191,
    8_192,
    8_193,
    16_384,
    65_534,
    65_535,
    65_536,
    i32::MAX as u32,
    1 << 31,
    u32::MAX - 1,
    u32::MAX,
];

/// A word that some table might hold, or that none may.
pub fn word(random: &mut Random) -> u32 {
    match random.weighted(&[50, 40, 10]) {
        0 => random.pick(&EDGES),
        1 => random.below(20) as u32,
        _ => random.word(),
    }
}

/// Entirely arbitrary words.
pub fn words(random: &mut Random, most: usize) -> Vec<u32> {
    let small = random.chance(50);
    let one = |random: &mut Random| if small { random.below(4) as u32 } else { word(random) };
    (0..random.between(0..=most)).map(|_| one(random)).collect()
}

/// What stands in a lent slice beforehand: it may look like a table, and is cheap to make.
pub fn garbage(random: &mut Random, length: usize) -> Vec<u32> {
    let (start, step) = (word(random), word(random));
    (0..length as u32)
        .map(|place| start.wrapping_add(place.wrapping_mul(step)))
        .collect()
}

/// Changes up to three words: to any, to a neighbour in number, or to another of the same slice.
pub fn change(random: &mut Random, words: &mut [u32]) {
    if words.is_empty() {
        return;
    }
    for _ in 0..random.between(1..=3) {
        let (place, other) = (random.below(words.len()), random.below(words.len()));
        words[place] = match random.below(4) {
            0 => word(random),
            1 => words[place].wrapping_add(1),
            2 => words[place].wrapping_sub(1),
            _ => words[other],
        };
    }
}

/// Changes words, or takes some away, or puts some in.
pub fn damage(random: &mut Random, words: &mut Vec<u32>) {
    let place = random.below(words.len() + 1);
    match random.weighted(&[70, 10, 10, 10]) {
        0 => change(random, words),
        1 => words.truncate(place),
        2 => words.insert(place, word(random)),
        _ => drop(words.drain(place..(place + random.between(1..=16)).min(words.len()))),
    }
}

/// Sets one field of one edge row to a number at which its range ends, or just past it.
pub fn field(random: &mut Random, rules: u32, nodes: u32, edges: &mut [u32]) {
    let rows = edges.len() / ROW;
    if rows == 0 {
        return;
    }
    let row = &mut edges[ROW * random.below(rows)..][..ROW];
    let pair = 5 + 2 * random.below(1 + row[4].min(4) as usize);
    let (place, ends) = match random.below(8) {
        0 => (0, [nodes - 1, nodes, random.below(nodes as usize) as u32]),
        1 => (1, [1 - row[1].min(1), 1, 2]),
        2 => (2, [0, 65_535, 65_536]),
        3 => (3, [0, nodes - 1, nodes]),
        4 => (4, [row[4].wrapping_sub(1), row[4] + 1, 6]),
        5 => (pair, [0, rules, rules + 1]),
        6 => (pair + 1, [1, 255, 256]),
        _ => (ROW - 1, [0, 1, u32::MAX]),
    };
    row[place] = random.pick(&ends);
}

/// Swaps two rows, gives one the key of another, or puts one in twice; half the time neighbours.
pub fn disorder(random: &mut Random, edges: &mut Vec<u32>) {
    let rows = edges.len() / ROW;
    if rows == 0 {
        return;
    }
    let one = random.below(rows);
    let other = if random.chance(50) { (one + 1) % rows } else { random.below(rows) };
    let (one, other) = (ROW * one, ROW * other);
    let row: Vec<u32> = edges[one..one + ROW].to_vec();
    match random.below(3) {
        0 => {
            edges.copy_within(other..other + ROW, one);
            edges[other..other + ROW].copy_from_slice(&row);
        }
        1 => edges[other..other + 3].copy_from_slice(&row[..3]),
        _ => drop(edges.splice(other..other, row)),
    }
}

/// Damage as it happens to statements and lists: one entry changed, dropped, doubled, swapped, or the rest cut off.
pub fn mangle(random: &mut Random, words: &mut Vec<u32>, pool: &[u32]) {
    if words.is_empty() {
        return words.push(random.pick(pool));
    }
    let (place, other) = (random.below(words.len()), random.below(words.len()));
    match random.below(6) {
        0 => words[place] = random.pick(pool),
        1 => drop(words.remove(place)),
        2 => words.insert(place, words[place]),
        3 => words.swap(place, other),
        4 => words.truncate(place),
        _ => words[place] = word(random),
    }
}
