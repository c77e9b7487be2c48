//! Rule sets made on purpose, and small edits of them: what chance alone brings together too seldom.

use super::rules::Item::{self, Constant as C, Slot as S};
use super::rules::{Rule, RuleSet};
use crate::random::Random;

type Short = (u32, &'static [Item]);

/// Set S of the sheet, with its rule 10.
const SHEET: [Short; 10] = [
    (2, &[C(10)]),
    (2, &[C(11)]),
    (3, &[C(12)]),
    (4, &[C(13)]),
    (3, &[S(4)]),
    (2, &[C(14), S(2)]),
    (2, &[C(5), S(2), C(7), S(2), C(6)]),
    (2, &[S(3), C(8), S(3)]),
    (2, &[S(3), C(9), S(3)]),
    (2, &[S(4), C(15), S(4)]),
];

/// Set T of the sheet: a chain whose first link stands first.
const FIRST_LINK_FIRST: [Short; 4] = [(20, &[C(30)]), (21, &[S(20)]), (22, &[S(21)]), (2, &[C(31), S(22)])];

/// Five conversions on one edge, which then is copied, or finds a sixth.
const FULL_EDGE: [Short; 12] = [
    (2, &[S(3), S(50), C(8)]),
    (2, &[S(4), C(9)]),
    (50, &[S(51)]),
    (51, &[S(52)]),
    (52, &[S(53)]),
    (53, &[S(54)]),
    (54, &[S(55)]),
    (3, &[S(4)]),
    (55, &[S(56)]),
    (4, &[C(13)]),
    (3, &[C(12)]),
    (55, &[C(30)]),
];

/// Copies of copies, with variable edges among them.
const COPIES: [Short; 10] = [
    (2, &[S(3), C(8), S(3)]),
    (2, &[S(3), S(4), C(7)]),
    (2, &[S(4), S(3), C(8)]),
    (2, &[S(5), C(9)]),
    (4, &[S(5)]),
    (3, &[S(4)]),
    (3, &[C(12)]),
    (4, &[C(13)]),
    (5, &[C(14)]),
    (5, &[S(2)]),
];

const SAMPLES: [&[Short]; 4] = [&SHEET, &FIRST_LINK_FIRST, &FULL_EDGE, &COPIES];

/// One of the sets, with up to three edits.
pub fn edited_sample(random: &mut Random) -> RuleSet {
    let rules = random
        .pick(&SAMPLES)
        .iter()
        .map(|(result, body)| Rule::new(*result, body))
        .collect();
    let mut set = RuleSet {
        provable: 1,
        logic: 2,
        rules,
    };
    for _ in 0..random.between(0..=3) {
        edit(random, &mut set);
    }
    set
}

/// A small change of some rules.
pub fn edit(random: &mut Random, set: &mut RuleSet) {
    let (constants, typecodes) = (set.constants(), set.typecodes());
    let (place, other) = (random.below(set.rules.len()), random.below(set.rules.len()));
    match random.below(5) {
        0 => drop(set.rules.swap_remove(place)),
        1 => set.rules.swap(place, other),
        2 => set
            .rules
            .insert(place, Rule::new(random.pick(&typecodes), &[C(random.pick(&constants))])),
        3 => set
            .rules
            .insert(place, Rule::new(random.pick(&typecodes), &[S(random.pick(&typecodes))])),
        _ => {
            let item = random.below(set.rules[place].body.len());
            let (slot, constant) = (S(random.pick(&typecodes)), C(random.pick(&constants)));
            set.rules[place].body[item] = random.pick(&[slot, constant]);
        }
    }
}
