//! Rules, the words that they make, and the bodies that the library finds in the words.

use jiehkavon::limits::{MOST_ITEMS, MOST_RULES};
use jiehkavon::{BuildError, Grammar, Item, Label, NotASymbol, RuleNo, Rules, Symbol, Variable};

use crate::sets::{c, grammar, rules, rules_of, s, set_s, set_s10, statement, symbol};

fn slot(typecode: u32, variable: u32) -> Item {
    Item::Slot {
        typecode: symbol(typecode),
        variable: Variable(symbol(variable)),
    }
}

fn constant(word: u32) -> Item {
    Item::Constant(symbol(word))
}

#[test]
fn symbols_are_1_to_65535() {
    assert_eq!([0, 65_536, u32::MAX].map(Symbol::new), [None; 3]);
    assert_eq!([1, 65_535].map(|word| Symbol::new(word).map(Symbol::word)), [Some(1), Some(65_535)]);
    assert_eq!(Symbol::try_from(65_536), Err(NotASymbol(65_536)));
    assert_eq!(NotASymbol(0).to_string(), "0 is no symbol: symbols are 1 to 65,535");
}

#[test]
fn pushed_rules_make_words() {
    let mut rules = Rules::new(symbol(1), symbol(2));
    assert_eq!(rules.push(symbol(3), &[slot(4, 9)]), RuleNo(1));
    assert_eq!(rules.push(symbol(2), &[constant(14), slot(2, 65_535)]), RuleNo(2));
    assert_eq!(rules.words(), [3, 1, 1, 4, 9, 2, 2, 0, 14, 0, 1, 2, 65_535]);
    assert_eq!(rules.numbers().collect::<Vec<_>>(), [RuleNo(1), RuleNo(2)]);
    assert_eq!(
        (rules.len(), rules.result(RuleNo(2)), rules.result(RuleNo(3))),
        (2, Some(symbol(2)), None)
    );
}

#[test]
fn slots_are_numbered() {
    let mut numbered = rules(&[]);
    assert_eq!(numbered.push_numbered(symbol(2), &[c(5), s(2), c(7), s(3), s(2)]), RuleNo(1));
    assert_eq!(numbered.push_numbered(symbol(3), &[s(2)]), RuleNo(2));
    let items = [constant(5), slot(2, 1), constant(7), slot(3, 2), slot(2, 3)];
    assert_eq!(numbered.items(RuleNo(1)), Some(&items[..]));
    assert_eq!(numbered.items(RuleNo(2)), Some(&[slot(2, 1)][..]));
    // more slots than there are numbers: bad for its length, as any body is that is longer than 32
    let last = rules(&[(2, &vec![s(3); 65_537])]);
    assert_eq!(
        last.items(RuleNo(1)).map(|items| items[65_534..].to_vec()),
        Some(vec![slot(3, 65_535); 3])
    );
    assert!(Grammar::build(last).is_err());
}

#[test]
fn one_variable_in_two_slots() {
    let built = |items: &[Item]| {
        let mut rules = set_s();
        rules.push(symbol(2), items);
        Grammar::build(rules).map_err(BuildError::from).map(|_| ())
    };
    assert_eq!(built(&[slot(5, 7), slot(6, 7)]), Err(BuildError::BadRules));
    assert_eq!(
        built(&[slot(5, 7), constant(20), slot(5, 8), slot(5, 7)]),
        Err(BuildError::BadRules)
    );
    assert_eq!(built(&[slot(5, 7), slot(6, 8)]), Ok(()));
    // a number belongs to its rule
    let mut rules = rules(&[]);
    rules.push(symbol(2), &[constant(10), slot(3, 7)]);
    rules.push(symbol(2), &[constant(11), slot(4, 7)]);
    assert!(Grammar::build(rules).is_ok());
}

#[test]
fn variables_are_not_in_the_tree() {
    let mut named = rules(&[]);
    named.push(symbol(2), &[constant(10)]);
    named.push(symbol(2), &[constant(5), slot(2, 65_535), constant(7), slot(2, 10), constant(6)]);
    named.push(symbol(3), &[slot(2, 2)]);
    named.push(symbol(2), &[constant(8), slot(3, 3)]);
    let numbered = grammar(rules_of("2 c10; 2 c5 s2 c7 s2 c6; 3 s2; 2 c8 s3"));
    let named = grammar(named);
    assert_eq!(named.tables(), numbered.tables());
    let tokens = statement(&[1, 5, 8, 10, 7, 10, 6]);
    assert_eq!(named.parse(&tokens).map(|formula| formula.to_string()), Ok("1 3 4 1 2".to_owned()));
    assert_eq!(numbered.parse(&tokens), named.parse(&tokens));
    // bodies that differ in nothing else collide, and a conversion has equal ends whatever its variable is
    let mut collide = rules(&[]);
    collide.push(symbol(2), &[constant(10), slot(2, 5)]);
    collide.push(symbol(2), &[constant(10), slot(2, 6)]);
    assert_eq!(Grammar::build(collide).map_err(|refused| refused.why()), Err(BuildError::Collision));
    let mut equal = rules(&[]);
    equal.push(symbol(2), &[slot(2, 5)]);
    assert_eq!(Grammar::build(equal).map_err(|refused| refused.why()), Err(BuildError::BadRules));
}

#[test]
fn words_say_rules() {
    let pushed = set_s10();
    assert_eq!(Rules::from_words(symbol(1), symbol(2), pushed.words()), Ok(pushed));
    assert_eq!(Rules::from_words(symbol(1), symbol(2), &[]), Ok(Rules::new(symbol(1), symbol(2))));
}

#[test]
fn words_that_say_no_rules() {
    let bad: [&[u32]; 14] = [
        &[2],
        &[2, 0],
        &[2, 1, 0],
        &[2, 1, 0, 10],
        &[2, 1, 2, 10, 0],
        &[2, 1, 0, 0, 0],
        &[2, 1, 0, 65_536, 0],
        &[2, 1, 0, 10, 5],
        &[2, 1, 1, 3, 0],
        &[2, 1, 1, 3, 65_536],
        &[2, 2, 1, 3, 7, 1, 4, 7],
        &[2, 1, 0, 10, 0, 5],
        &[2, u32::MAX, 0, 10, 0],
        &[0, 1, 0, 10, 0],
    ];
    for words in bad {
        assert_eq!(
            Rules::from_words(symbol(1), symbol(2), words),
            Err(BuildError::BadRules),
            "{words:?}"
        );
    }
    assert_eq!(Rules::from_words(symbol(2), symbol(2), &[]), Err(BuildError::BadRules));
}

#[test]
fn the_library_finds_the_bodies_that_were_pushed() {
    let rules = set_s();
    for rule in rules.numbers() {
        let items: Vec<u32> = rules.items(rule).into_iter().flatten().flat_map(|item| item.words()).collect();
        assert_eq!(rules.body(rule), Some(&items[..]), "rule {rule}");
    }
    // the stretch is a part of the rules' own words
    let body = rules.body(RuleNo(6)).expect("a body");
    assert!(std::ptr::eq(body, &rules.words()[27..33]));
    for rule in [0, 10, 2_049, u32::MAX] {
        assert_eq!((rules.body(RuleNo(rule)), rules.items(RuleNo(rule))), (None, None));
    }
}

#[test]
fn bad_rules_have_no_bodies() {
    let mut rules = set_s();
    rules.push(symbol(2), &[]);
    assert!(rules.numbers().all(|rule| rules.body(rule).is_none()));
    assert_eq!(rules.items(RuleNo(1)), Some(&[constant(10)][..]));
    assert_eq!(rules.items(RuleNo(10)), Some(&[][..]));
}

#[test]
fn the_most_rules_and_items() {
    let many = |count: usize| {
        let mut rules = rules(&[]);
        for label in 1..=count {
            rules.push_numbered(symbol(2), &[c(label as u32)]);
        }
        rules
    };
    assert_eq!(many(MOST_RULES).body(RuleNo(2_048)), Some(&[0, 2_048, 0][..]));
    assert_eq!(many(MOST_RULES + 1).body(RuleNo(1)), None);
    let long = |count: usize| rules(&[(2, &vec![c(10); count])]);
    assert_eq!(long(MOST_ITEMS).body(RuleNo(1)), Some(&[0, 10, 0].repeat(32)[..]));
    assert_eq!(long(MOST_ITEMS + 1).body(RuleNo(1)), None);
}

#[test]
fn items_and_their_words() {
    for (item, words) in [
        (constant(10), [0, 10, 0]),
        (slot(65_535, 1), [1, 65_535, 1]),
        (slot(1, 65_535), [1, 1, 65_535]),
    ] {
        assert_eq!((item.words(), Item::from_words(words)), (words, Some(item)));
    }
    let none = [
        [2, 10, 0],
        [2, 10, 1],
        [0, 0, 0],
        [0, 10, 1],
        [0, 10, 65_536],
        [1, 65_536, 1],
        [1, 3, 0],
        [1, 3, 65_536],
    ];
    assert_eq!(none.map(Item::from_words), [None; 8]);
    assert_eq!([constant(10), slot(3, 7)].map(Item::label), [c(10), s(3)]);
}

#[test]
fn labels_and_their_words() {
    for (label, words) in [(c(10), [0, 10]), (s(65_535), [1, 65_535])] {
        assert_eq!((label.words(), Label::from_words(words)), (words, Some(label)));
    }
    assert_eq!([[2, 10], [0, 0], [1, 65_536]].map(Label::from_words), [None; 3]);
}

#[test]
fn variables_are_1_to_65535() {
    assert_eq!([0, 65_536, u32::MAX].map(Variable::new), [None; 3]);
    assert_eq!(
        [1, 65_535].map(|word| Variable::new(word).map(Variable::word)),
        [Some(1), Some(65_535)]
    );
    assert_eq!(Variable(symbol(7)).to_string(), "7");
}
