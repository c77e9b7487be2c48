//! Each refusal, at the very number where it begins.

mod desk;

use desk::{build_in, build_number, row, rules, verify, Desk, GARBAGE, S};
use plain::Stretch;

fn body(rules: &[u32], rule: u32) -> (u32, u32) {
    let Stretch { start, length } = plain::body(1, 2, rules, rule);
    (start, length)
}

#[test]
fn bodies_as_stretches() {
    let words = rules(S);
    assert_eq!(body(&words, 1), (2, 3));
    assert_eq!(body(&words, 2), (7, 3));
    let (start, length) = body(&words, 7);
    assert_eq!(
        words[start as usize..][..length as usize],
        [0, 5, 0, 1, 2, 1, 0, 7, 0, 1, 2, 2, 0, 6, 0]
    );
    for none in [0, 10, u32::MAX] {
        assert_eq!(body(&words, none), (0, 0));
    }
    assert_eq!(body(&words[..words.len() - 1], 1), (0, 0));
}

/// The answer of every entry point that looks at rules.
fn rule_answers(provable: u32, logic: u32, words: &[u32]) -> [u32; 3] {
    let (mut nodes, mut edges, mut frames, mut list, mut work) =
        ([GARBAGE; 70], [GARBAGE; 1_600], [GARBAGE; 9], [GARBAGE; 9], [GARBAGE; 9]);
    let built = plain::build(provable, logic, words, &[], &mut nodes, &mut edges, &mut frames);
    let (nodes, edges) = (&nodes[..built.nodes as usize], &edges[..16 * built.edges as usize]);
    let parsed = plain::parse(provable, logic, words, nodes, edges, &[], 9, &mut frames, &mut list, &mut work);
    let checked = plain::verify(provable, logic, words, &[], &[], &mut work);
    [built.number, parsed.number, checked.number]
}

#[test]
fn typecodes() {
    assert_eq!(rule_answers(1, 65_535, &[]), [0, 1, 1]);
    for (provable, logic) in [(0, 2), (1, 0), (1, 1), (65_536, 2), (1, 65_536)] {
        assert_eq!(rule_answers(provable, logic, &[]), [10, 10, 10]);
    }
}

#[test]
fn rule_words() {
    let good: [&[u32]; 5] = [
        &[2, 1, 0, 1, 0],
        &[65_535, 1, 1, 65_534, 1],
        &[2, 1, 1, 1, 1],
        &[3, 1, 1, 2, 1, 2, 1, 1, 3, 1],
        &[2, 2, 1, 2, 1, 1, 2, 2],
    ];
    for words in good {
        assert_ne!(rule_answers(1, 2, words), [10, 10, 10], "{words:?}");
    }
    let bad: [&[u32]; 15] = [
        &[0, 1, 0, 1, 0],
        &[65_536, 1, 0, 1, 0],
        &[1, 1, 0, 5, 0],
        &[2, 0],
        &[2, 0, 0, 5, 0],
        &[2, 1, 2, 5, 0],
        &[2, 1, 2, 5, 1],
        &[2, 1, 0, 0, 0],
        &[2, 1, 1, 65_536, 1],
        &[2, 1, 1, 2, 1],
        &[2, 1, 0, 5, 0, 2],
        &[2, 1, 0, 5, 0, 2, 1],
        &[2, 1, 0, 5],
        &[2, 2, 0, 5, 0, 0, 6],
        &[2, u32::MAX, 0, 5, 0],
    ];
    for words in bad {
        assert_eq!(rule_answers(1, 2, words), [10, 10, 10], "{words:?}");
    }
}

#[test]
fn variables() {
    for variable in [1, 2, 65_535] {
        assert_ne!(rule_answers(1, 2, &[2, 1, 1, 3, variable]), [10, 10, 10], "{variable}");
        assert_eq!(rule_answers(1, 2, &[2, 1, 0, 3, variable]), [10, 10, 10], "{variable}");
    }
    for variable in [0, 65_536, u32::MAX] {
        assert_eq!(rule_answers(1, 2, &[2, 1, 1, 3, variable]), [10, 10, 10], "{variable}");
    }
    assert_eq!(rule_answers(1, 2, &[2, 1, 0, 3, 0]), [0, 1, 1]);
}

#[test]
fn one_variable_in_two_slots() {
    // Whatever typecodes they have, and however far apart they stand.
    for bad in [
        "2 s3:7 s4:7",
        "2 s3:7 s3:7",
        "2 s3:7 c10 s4:8 c11 s5:7",
        "2 s3:2 c10 s4",
        "2 c10; 3 c11 s2:1 s2:1",
    ] {
        assert_eq!(build_number(bad), 10, "{bad}");
    }
    let last = |variable| {
        let slots: Vec<u32> = (1..=31).chain([variable]).flat_map(|variable| [1, 3, variable]).collect();
        [vec![2, 32], slots].concat()
    };
    assert_eq!(
        [1, 16, 31, 32].map(|variable| rule_answers(1, 2, &last(variable))[0]),
        [10, 10, 10, 0]
    );
    // Variables belong to a rule.
    assert_eq!(build_number("2 c10 s3:7; 2 c11 s4:7; 3 s4:7"), 0);
}

#[test]
fn variables_change_nothing_else() {
    let numbered = Desk::grown("2 c10; 2 c5 s2 c7 s2 c6; 3 s2; 2 c8 s3");
    let named = Desk::grown("2 c10; 2 c5 s2:65535 c7 s2:10 c6; 3 s2:4; 2 c8 s3:1");
    assert_eq!((&named.nodes, &named.edges), (&numbered.nodes, &numbered.edges));
    let tokens = [1, 5, 8, 10, 7, 10, 6];
    assert_eq!(named.parse(&tokens), numbered.parse(&tokens));
    assert_eq!(named.verify(&tokens, &[1, 3, 4, 1, 2]), 0);
    // A collision and the equal ends of a conversion are found whatever the variables are.
    assert_eq!(build_number("2 c10 s2:5; 2 c10 s2:6"), 11);
    assert_eq!(build_number("2 s2:5"), 10);
}

#[test]
fn longest_body() {
    let body = |items: u32| [vec![2, items], [0, 5, 0].repeat(items as usize)].concat();
    assert_eq!(rule_answers(1, 2, &body(32)), [0, 1, 1]);
    assert_eq!(rule_answers(1, 2, &body(33)), [10, 10, 10]);
}

#[test]
fn most_rules() {
    let constants = |count: u32| (1..=count).flat_map(|symbol| [2, 1, 0, symbol, 0]).collect::<Vec<_>>();
    assert_eq!(build_in(&constants(2_048), 2_049, 16 * 2_048).built.number, 0);
    assert_eq!(build_in(&constants(2_049), 3_000, 16 * 3_000).built.number, 10);
}

/// The answer for one token more than none, over these tables and the rules of S.
fn table_answer(nodes: &[u32], edges: &[u32]) -> u32 {
    Desk::of(rules(S), nodes.to_vec(), edges.to_vec()).number(&[1])
}

const PASSED: u32 = 1;

#[test]
fn node_words() {
    for nodes in [&[0][..], &[0, 9], &vec![0; 8_192]] {
        assert_eq!(table_answer(nodes, &[]), PASSED);
    }
    for nodes in [&[][..], &[1], &[0, 10], &[0, u32::MAX], &vec![0; 8_193]] {
        assert_eq!(table_answer(nodes, &[]), 8);
    }
}

#[test]
fn edge_words() {
    let answer = |words: &[u32]| table_answer(&[0, 0, 4], &row(words));
    let good: [&[u32]; 5] = [
        &[0, 0, 65_535, 2],
        &[0, 1, 1, 1],
        &[1, 1, 3, 2],
        &[1, 1, 3, 1, 1, 9, 255],
        &[0, 0, 7, 2, 5, 1, 0, 2, 0, 3, 0, 4, 0, 5, 0],
    ];
    for words in good {
        assert_eq!(answer(words), PASSED, "{words:?}");
    }
    let bad: [&[u32]; 14] = [
        &[3, 0, 7, 1],
        &[2, 0, 7, 1],
        &[0, 2, 7, 1],
        &[0, 0, 0, 1],
        &[0, 0, 65_536, 1],
        &[0, 0, 7, 0],
        &[0, 0, 7, 3],
        &[0, 1, 7, 2],
        &[0, 0, 7, 1, 6, 1, 0, 1, 0, 1, 0, 1, 0, 1, 0],
        &[0, 0, 7, 1, 1, 10, 0],
        &[0, 0, 7, 1, 1, 0, 0],
        &[0, 0, 7, 1, 1, 1, 256],
        &[0, 0, 7, 1, 1, 1, 0, 0, 1],
        &[0, 0, 7, 1, 0, 0, 0, 0, 0, 0, 0, 0, 0, 0, 0, 1],
    ];
    for words in bad {
        assert_eq!(answer(words), 8, "{words:?}");
    }
}

#[test]
fn edge_rows() {
    let edges: Vec<u32> = (1..=16_385).flat_map(|symbol| row(&[0, 0, symbol, 1])).collect();
    assert_eq!(table_answer(&[0, 1], &edges[..15]), 8);
    assert_eq!(table_answer(&[0, 1], &edges[..16 * 16_384]), PASSED);
    assert_eq!(table_answer(&[0, 1], &edges), 8);
}

#[test]
fn rows_rise_by_from_then_kind_then_symbol() {
    let answer = |keys: &[[u32; 3]]| {
        let rows = keys.iter().flat_map(|&[from, kind, symbol]| row(&[from, kind, symbol, 11]));
        table_answer(&[0; 12], &rows.collect::<Vec<u32>>())
    };
    let rising = [[0, 0, 9], [0, 0, 10], [0, 0, 65_535], [0, 1, 2], [2, 0, 7], [10, 0, 1]];
    assert_eq!(answer(&rising), PASSED);
    for at in 1..rising.len() {
        let mut swapped = rising;
        swapped.swap(at - 1, at);
        assert_eq!(answer(&swapped), 8, "{swapped:?}");
        let mut twice = rising.to_vec();
        twice.insert(at, rising[at]);
        assert_eq!(answer(&twice), 8, "{twice:?}");
    }
    // not only at its ends, and not only neighbours that are equal
    assert_eq!(answer(&[[0, 0, 10], [0, 0, 11], [0, 0, 10], [0, 0, 12]]), 8);
}

#[test]
fn order_of_refusals() {
    let mut desk = Desk::grown(S);
    let many = vec![1; 32_770];
    desk.edges.pop();
    assert_eq!([desk.number(&[]), desk.number(&many)], [8, 8]);
    desk.rules.pop();
    assert_eq!([desk.number(&[]), desk.verify(&many, &[])], [10, 10]);
    let rules = rules(S);
    assert_eq!(verify(&rules, &[1], &[1], 0), 1);
    assert_eq!(verify(&rules, &many, &[1], 0), 9);
    assert_eq!(verify(&rules, &[1, 11], &[1], 0), 7);
    assert_eq!(verify(&rules, &[1, 11], &[1], 1), 4);
}

#[test]
fn too_few_trees_before_a_full_list() {
    // A conversion is reduced where no tree stands.
    let edges = row(&[0, 0, 10, 1, 1, 5, 0]);
    let desk = Desk::of(rules(S), vec![0, 1], edges.to_vec());
    assert_eq!(desk.refusal(&[1, 10]), (4, 0, 1));
    assert_eq!(Desk { list: 0, ..desk }.refusal(&[1, 10]), (4, 0, 1));
}

#[test]
fn first_refused_reduce_decides() {
    // The first reduce stands on nothing and needs an entry; the second would lack its tree.
    let edges = row(&[0, 0, 10, 1, 2, 1, 0, 5, 9]);
    let desk = Desk::of(rules(S), vec![0, 1], edges.to_vec());
    assert_eq!(desk.number(&[1, 10]), 4);
    assert_eq!(Desk { work: 0, ..desk }.number(&[1, 10]), 7);
}

#[test]
fn offsets_reach_below_the_top() {
    let edges = [row(&[0, 0, 13, 1, 2, 4, 0, 1, 0]), row(&[1, 0, 8, 2, 1, 5, 1])].concat();
    let rules = rules(&format!("{S}; 2 s3 s2"));
    let mut desk = Desk::of(rules, vec![0, 0, 10], edges);
    assert_eq!(desk.refusal(&[1, 13, 8]), (4, 0, 3));
    // Whatever these tables walk over, the check asks what the tree spells.
    assert_eq!(desk.verify(&[1, 13, 10], &[4, 5, 1, 10]), 0);
    desk.edges[16 + 2] = 10;
    assert_eq!(desk.refusal(&[1, 13, 10]), (0, 0, 3));
    desk.edges[16 + 6] = 2;
    assert_eq!(desk.refusal(&[1, 13, 10]), (4, 0, 2));
}

#[test]
fn tokens_outside_the_symbols() {
    let desk = Desk::grown(S);
    assert_eq!(desk.refusal(&[1, 0]), (2, 1, 1));
    assert_eq!(desk.refusal(&[1, 65_536 + 10]), (2, 1, 1));
    assert_eq!(desk.refusal(&[0, 10]), (2, 1, 2));
    assert_eq!(desk.verify(&[0, 10], &[1]), 4);
}

#[test]
fn branch_without_edges() {
    let desk = Desk::of(rules(S), vec![0, 0], row(&[0, 0, 10, 1]).to_vec());
    assert_eq!(desk.refusal(&[1, 10, 10]), (2, 2, 2));
}

#[test]
fn collisions() {
    assert_eq!(build_number("2 c10 c11; 3 c10 c11"), 11);
    assert_eq!(build_number("2 c10 c11; 2 c10"), 11);
    assert_eq!(build_number("2 c10; 2 c10 c11"), 11);
    assert_eq!(build_number("2 c10; 2 c10 c11 c12"), 11);
    assert_eq!(build_number("2 c10 s11; 2 c10 c11"), 0);
}

#[test]
fn build_rooms() {
    let number = |text: &str, nodes, edges| build_in(&rules(text), nodes, edges).built.number;
    assert_eq!(number("", 0, 0), 12);
    assert_eq!(number("", 1, 0), 0);
    assert_eq!(number("2 c10", 1, 0), 12);
    assert_eq!(number("2 c10", 2, 15), 13);
    assert_eq!(number("2 c10", 2, 16), 0);
    assert_eq!(number("2 c10; 2 c10", 2, 16), 11);
    assert_eq!(number(S, 17, 16 * 19), 0);
    assert_eq!(number(S, 16, 16 * 19), 12);
    assert_eq!(number(S, 17, 16 * 19 - 1), 13);
}

#[test]
fn build_room_ends_at_the_limits() {
    // 1 + 13 * 630 + 1 nodes, and one more.
    let fork = |symbol: u32, items: usize| [vec![2, items as u32], [0, symbol, 0].repeat(items)].concat();
    let forks: Vec<u32> = (1..=630).flat_map(|symbol| fork(symbol, 13)).collect();
    let with = |items| [forks.clone(), fork(1_000, items)].concat();
    assert_eq!(build_in(&with(1), 9_000, 16 * 9_000).built.nodes, 8_192);
    assert_eq!(build_in(&with(2), 9_000, 16 * 9_000).built.number, 12);
}

#[test]
fn build_room_for_edges_ends_at_the_limit() {
    // 1 + 1,022 + 15 * 2 edges of rules, 15 * 1,022 copied ones, and one more or two.
    let copied: Vec<String> = (1..=1_022).map(|symbol| format!("2 s3 c{symbol}")).collect();
    let onto: Vec<String> = (100..115).map(|typecode| format!("2 s{typecode} c2000; 3 s{typecode}")).collect();
    let with = |single: &str| rules(&format!("{}; {}; {single}", copied.join(";"), onto.join(";")));
    assert_eq!(build_in(&with("2 c1"), 9_000, 16 * 17_000).built.edges, 16_384);
    assert_eq!(build_in(&with("2 c1; 2 c2"), 9_000, 16 * 17_000).built.number, 13);
}

#[test]
fn sixth_reduce_before_a_full_table() {
    let chain = "2 c31 s50; 50 s51; 51 s52; 52 s53; 53 s54; 54 s55; 55 s56";
    assert_eq!(build_in(&rules(chain), 3, 16 * 7).built.number, 14);
    assert_eq!(build_in(&rules(chain), 3, 16 * 6).built.number, 13);
    let copied = "2 s3 s50 c8; 2 s4 c9; 50 s51; 51 s52; 52 s53; 53 s54; 54 s55; 3 s4";
    assert_eq!(build_in(&rules(copied), 6, 16 * 15).built.number, 14);
    assert_eq!(build_in(&rules(copied), 6, 16 * 14).built.number, 13);
}

#[test]
fn bad_copies() {
    // To itself, from a leaf, to a leaf.
    assert_eq!(build_number("2 s3 c8; 3 s4; 3 s4"), 16);
    assert_eq!(build_number("2 c9 s3; 2 c9 s4 c8; 3 s4"), 16);
    assert_eq!(build_number("2 c9 s4; 2 c9 s3 c8; 3 s4"), 16);
    assert_eq!(build_number("3 s4; 3 s4; 2 c10"), 0);
}

#[test]
fn lists_of_every_kind() {
    let desk = Desk::grown(S);
    assert_eq!(desk.verify(&[1, 13, 8, 12], &[4, 5, 3, 8]), 0);
    assert_eq!(desk.verify(&[2, 13, 8, 12], &[4, 5, 3, 8]), 0);
    for list in [
        &[4, 3, 8][..],
        &[4, 5, 3],
        &[1, 4, 5, 3, 8],
        &[4, 5, 3, 9],
        &[4, 5, 3, 0, 8],
        &[4, 5, 3, 10],
        &[8],
    ] {
        assert_eq!(desk.verify(&[1, 13, 8, 12], list), 4, "{list:?}");
    }
    assert_eq!(desk.verify(&[3, 13, 8, 12], &[4, 5, 3, 8]), 4);
    assert_eq!(desk.verify(&[1, 13, 8], &[4, 5, 3, 8]), 4);
    assert_eq!(desk.verify(&[1, 13, 8, 12, 12], &[4, 5, 3, 8]), 4);
    assert_eq!(desk.verify(&[1, 13, 13, 8, 12], &[4, 5, 3, 8]), 4);
}

#[test]
fn list_much_longer_than_its_tokens() {
    let words = rules("2 c10; 3 s2; 2 s3");
    let list = [vec![1], [2, 3].repeat(50_000)].concat();
    assert_eq!(verify(&words, &[1, 10], &list, list.len()), 0);
    assert_eq!(verify(&words, &[3, 10], &list, list.len()), 4);
}

/// The rows of a node are copied in the order of their keys.
#[test]
fn the_lower_key_decides_between_14_and_13() {
    let number = |text: &str, rows: usize| build_in(&rules(text), 100, 16 * rows).built.number;
    let falling = "2 c10 s3 s45; 2 c10 s4 c11; 45 s44; 44 s43; 43 s42; 42 s41; 41 s40; 3 s4";
    assert_eq!([8, 9, 10, 11, 12].map(|rows| number(falling, rows)), [13, 13, 14, 14, 14]);
    let rising = "2 c10 s3 s20; 2 c10 s4 c11; 20 s21; 21 s22; 22 s23; 23 s24; 24 s25; 20 s10; 3 s4";
    assert_eq!([15, 16, 17, 18].map(|rows| number(rising, rows)), [13, 13, 14, 14]);
}
