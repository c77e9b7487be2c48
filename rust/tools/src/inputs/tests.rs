//! The generators make what they say.

use super::commands::{fault, words};
use super::damage::disorder;
use super::gardens::{garden, samples, Garden};
use super::limits;
use super::packages::{bytes, counted, mixed_records, rearrange, records, with_item_fault, with_length_fault, Record};
use super::rules::{rename, rule_fault, rule_set, RuleSet};
use super::sentences::{guided, Grower};
use super::tables::{ample_room, built, hand_made, piled, rearranged, with_tables, ROW};
use super::Grammar;
use crate::random::Random;

const SETS: usize = 300;

fn sets(seed: u64) -> Vec<RuleSet> {
    let mut random = Random::new(seed);
    let mut set = |size| rule_set(&mut random, size % 30);
    (0..SETS).map(&mut set).collect()
}

fn build(set: &RuleSet, (nodes, edges): (usize, usize)) -> (u32, u32, u32) {
    let (mut nodes, mut edges) = (vec![0; nodes], vec![0; ROW * edges]);
    let built = plain::build(set.provable, set.logic, &set.words(), &[], &mut nodes, &mut edges, &mut []);
    (built.number, built.nodes, built.edges)
}

fn number(grammar: &Grammar, tokens: &[u32]) -> u32 {
    let room = 24 * tokens.len();
    let (mut frames, mut list, mut work) = (vec![0; room], vec![0; room], vec![0; room]);
    let Grammar { rules, nodes, edges, .. } = grammar;
    let (provable, logic) = (grammar.provable, grammar.logic);
    plain::parse(
        provable,
        logic,
        rules,
        nodes,
        edges,
        tokens,
        u32::MAX,
        &mut frames,
        &mut list,
        &mut work,
    )
    .number
}

fn verify(set: &RuleSet, tokens: &[u32], list: &[u32]) -> u32 {
    plain::verify(set.provable, set.logic, &set.words(), tokens, list, &mut vec![0; list.len()]).number
}

#[test]
fn rule_sets_are_good_rules_and_mostly_build() {
    let numbers: Vec<u32> = sets(1).iter().map(|set| build(set, ample_room(set)).0).collect();
    assert!(!numbers.contains(&10));
    let count = |wanted: u32| numbers.iter().filter(|&&number| number == wanted).count();
    assert!(count(0) > SETS / 3 && count(11) > 0 && count(14) > 0 && count(16) > 0);
}

#[test]
fn other_variables_change_no_tree() {
    let mut random = Random::new(12);
    for mut set in sets(12) {
        let counted = (set.words(), build(&set, ample_room(&set)));
        rename(&mut random, &mut set);
        let renamed = (set.words(), build(&set, ample_room(&set)));
        assert_eq!((counted.0.len(), counted.1), (renamed.0.len(), renamed.1));
    }
}

/// Whether a constant has a variable, a slot none, a slot one past the last, and two slots of a rule the same.
fn variable_faults(set: &RuleSet) -> [bool; 4] {
    let mut found = [false; 4];
    for rule in &set.rules {
        let words = rule.words();
        let items = || words[2..].chunks_exact(3);
        let slots: Vec<u32> = items().filter(|item| item[0] == 1).map(|item| item[2]).collect();
        found[0] |= items().any(|item| item[0] == 0 && item[2] != 0);
        found[1] |= slots.contains(&0);
        found[2] |= slots.iter().any(|&variable| variable > 65_535);
        found[3] |= (1..slots.len()).any(|slot| slots[..slot].contains(&slots[slot]));
    }
    found
}

#[test]
fn rule_faults_have_every_fault_of_variables() {
    let mut random = Random::new(13);
    let mut counts = [0; 4];
    for mut set in sets(13).into_iter().chain(sets(14)) {
        rule_fault(&mut random, &mut set);
        let faults = variable_faults(&set);
        for (count, fault) in counts.iter_mut().zip(faults) {
            *count += fault as usize;
        }
        if faults.contains(&true) {
            assert_eq!(build(&set, ample_room(&set)).0, 10, "{set:?}");
        }
    }
    assert!(counts.iter().all(|&count| count > 2), "{counts:?}");
}

#[test]
fn grown_statements_are_spelled_by_their_lists() {
    let mut random = Random::new(2);
    let mut grown = 0;
    for set in sets(2) {
        if let Some(sentence) = Grower::new(&set).sentence(&mut random, set.logic, 20) {
            assert_eq!(verify(&set, &sentence.tokens, &sentence.list), 0, "{set:?} {sentence:?}");
            grown += 1;
        }
    }
    assert!(grown > SETS / 2);
}

#[test]
fn many_grown_statements_parse() {
    let mut random = Random::new(3);
    let sets = sets(3);
    let accepted = |set: &&RuleSet| {
        let sentence = Grower::new(set).sentence(&mut random, set.logic, 20);
        built(set)
            .zip(sentence)
            .is_some_and(|(grammar, sentence)| number(&grammar, &sentence.tokens) == 0)
    };
    assert!(sets.iter().filter(accepted).count() > SETS / 5);
}

#[test]
fn made_tables_pass_the_table_check() {
    let mut random = Random::new(4);
    for set in sets(4) {
        assert_eq!(number(&hand_made(&mut random, &set), &[1]), 1);
        if let Some(grammar) = built(&set) {
            assert_eq!(number(&rearranged(&mut random, &set, &grammar), &[1]), 1);
        }
    }
}

#[test]
fn disordered_tables_are_mostly_bad() {
    let mut random = Random::new(4);
    let grammars: Vec<Grammar> = sets(4)
        .iter()
        .filter_map(built)
        .filter(|grammar| grammar.edges.len() > ROW)
        .collect();
    let count = grammars.len();
    let disordered = grammars.into_iter().filter(|grammar| {
        let mut grammar = grammar.clone();
        disorder(&mut random, &mut grammar.edges);
        number(&grammar, &[1]) == 8
    });
    assert!(disordered.count() > 3 * count / 4);
}

#[test]
fn piled_trees_are_mostly_accepted() {
    let mut random = Random::new(5);
    let mut accepted = || piled(&mut random);
    let count = (0..50)
        .map(|_| accepted())
        .filter(|(grammar, tokens)| number(grammar, tokens) == 0)
        .count();
    assert!(count > 35, "{count}");
}

#[test]
fn guided_tokens_are_those_asked_for() {
    let mut random = Random::new(6);
    let answer = |tokens: &[u32]| match tokens.iter().skip(1).position(|&token| token != 7) {
        Some(place) => (2, place as u32 + 1),
        None => (3, 0),
    };
    assert_eq!(guided(&mut random, 1, &[6, 7], 9, answer)[..6], [1, 7, 7, 7, 7, 7]);
}

#[test]
fn limits_are_exact() {
    let build = |set: &RuleSet| build(set, (8_300, 16_500));
    assert_eq!([2_048, 2_049].map(|count| build(&limits::many_rules(count)).0), [0, 10]);
    assert_eq!(build(&limits::tree_of_nodes(8_192)), (0, 8_192, 8_191));
    assert_eq!(build(&limits::tree_of_nodes(8_193)).0, 12);
    assert_eq!(build(&limits::tree_of_edges(1)).2, 16_384);
    assert_eq!(build(&limits::tree_of_edges(2)).0, 13);
}

#[test]
fn tables_at_their_limits_are_walked() {
    for tokens in limits::ACCEPTED {
        assert_eq!([8_192, 8_193].map(|count| number(&limits::many_nodes(count), tokens)), [0, 8]);
        assert_eq!([16_384, 16_385].map(|count| number(&limits::many_edges(count), tokens)), [0, 8]);
    }
}

#[test]
fn longest_statements_are_walked() {
    for (count, numbers) in [(32_769, [0, 0, 2]), (32_770, [9, 9, 9])] {
        let (set, statements) = limits::many_tokens(count);
        let grammar = built(&set).expect("the set builds");
        let answers: Vec<u32> = statements.iter().map(|tokens| number(&grammar, tokens)).collect();
        assert_eq!(answers, numbers);
    }
}

#[test]
fn long_lists_are_trees() {
    let (set, tokens, list) = limits::long_list(20_000);
    assert_eq!(verify(&set, &tokens, &list), 0);
    assert_eq!(number(&with_tables(&set, vec![0], Vec::new()), &tokens), 2);
}

/// The number that reading a package answers, with room for whatever it says.
fn package_number(package: &[u8]) -> u32 {
    let [mut rules, mut statements] = [(); 2].map(|()| vec![0; package.len() / 2]);
    plain::package_read(package, &mut rules, &mut statements).number
}

#[test]
fn packages_are_good_and_come_back() {
    for set in sets(7) {
        let statements = [vec![set.provable, 10], vec![], vec![0]];
        let (package, words) = (bytes(&records(&set, &statements)), counted(&statements));
        assert_eq!(package_number(&package), 0);
        let mut written = vec![0; package.len()];
        let answer = plain::package_write(set.provable, set.logic, &set.words(), &words, &mut written);
        assert_eq!((answer.number, written), (0, package));
    }
}

#[test]
fn packages_of_both_forms_come_back_in_the_new_one() {
    let mut random = Random::new(11);
    let mut mixed = 0;
    for set in sets(11) {
        let statements = [vec![set.provable, 10]];
        let records = mixed_records(&mut random, &set, &statements);
        let has = |kind: u16| records.iter().any(|record| record.kind == kind);
        mixed += (has(2) && has(5)) as usize;
        let package = bytes(&records);
        let needed = records
            .iter()
            .map(Record::words)
            .fold((0, 0), |sum, words| (sum.0 + words.0, sum.1 + words.1));
        let (mut rules, mut words) = (vec![0; needed.0], vec![0; needed.1]);
        let read = plain::package_read(&package, &mut rules, &mut words);
        assert_eq!((read.number, read.rules, read.words), (0, needed.0, needed.1));
        assert_eq!(rules, set.words());
        let new = bytes(&self::records(&set, &statements));
        let mut written = vec![0; new.len()];
        plain::package_write(set.provable, set.logic, &rules, &words, &mut written);
        assert_eq!(written, new);
    }
    assert!(mixed > SETS / 4, "{mixed}");
}

#[test]
fn damaged_packages_are_refused_in_every_way() {
    let mut random = Random::new(8);
    let mut numbers = Vec::new();
    for set in sets(8) {
        let records = records(&set, &[vec![set.provable, 10]]);
        let mut others = records.clone();
        rearrange(&mut random, &mut others);
        numbers.push(package_number(&bytes(&others)));
        numbers.push(package_number(&with_length_fault(&mut random, &records)));
        numbers.extend(with_item_fault(&mut random, &records).map(|package| package_number(&package)));
    }
    for number in [0, 10, 20, 21, 22, 23] {
        assert!(numbers.contains(&number), "{number}");
    }
}

/// The number of a build with commands, with room for the largest trees.
fn garden_number(garden: &Garden) -> u32 {
    command_number(&garden.set, &words(&garden.commands))
}

fn command_number(set: &RuleSet, commands: &[u32]) -> u32 {
    let room = plain::Room {
        nodes: 8_192,
        edges: 16_384,
        frames: 16_385,
    };
    let rules = plain::Rules::read(set.provable, set.logic, &set.words()).expect("good rules");
    plain::grow(&rules, commands, room).err().map_or(0, plain::Refusal::number)
}

#[test]
fn samples_of_gardens_end_in_every_way() {
    let numbers: Vec<u32> = samples().iter().map(garden_number).collect();
    assert_eq!(numbers, [0, 0, 0, 0, 0, 0, 0, 12, 14, 15, 17, 16]);
}

#[test]
fn many_gardens_build_and_their_paths_copy() {
    let mut random = Random::new(9);
    let gardens: Vec<Garden> = (0..SETS).map(|_| garden(&mut random)).collect();
    let good = |garden: &&Garden| plain::Rules::read(1, 2, &garden.set.words()).is_some();
    let built: Vec<&Garden> = gardens.iter().filter(good).filter(|garden| garden_number(garden) == 0).collect();
    assert!(built.len() > SETS / 3, "{}", built.len());
    let copied = built.iter().filter(|garden| {
        let rows = |commands: &[u32]| {
            let rules = plain::Rules::read(1, 2, &garden.set.words()).expect("good rules");
            let room = plain::Room {
                nodes: 8_192,
                edges: 16_384,
                frames: 16_385,
            };
            plain::grow(&rules, commands, room).map_or(0, |tree| tree.rows.len())
        };
        rows(&words(&garden.commands)) > rows(&[])
    });
    assert!(copied.count() > SETS / 6);
}

#[test]
fn command_faults_are_mostly_refused() {
    let mut random = Random::new(10);
    let garden = &samples()[0];
    let refused = (0..100).filter(|_| command_number(&garden.set, &fault(&mut random, &garden.commands)) == 16);
    assert!(refused.count() > 50);
}
