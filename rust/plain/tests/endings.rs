//! Conversions at the end of a statement, with frames left and without.

mod desk;

use desk::{row, rules, Desk, S, T};

/// Number, place, passes, list.
fn parsed(text: &str, tokens: &[u32]) -> (u32, u32, u32, Vec<u32>) {
    let (answer, list) = Desk::grown(text).parse(tokens);
    (answer.number, answer.place, answer.passes, list)
}

#[test]
fn first_conversion_in_rule_order_to_what_the_frame_wants() {
    let text = "20 c30; 22 s20; 21 s20; 2 c31 s23; 23 s21; 23 s22";
    assert_eq!(parsed(text, &[1, 31, 30]), (0, 0, 5, vec![1, 2, 6, 4]));
}

#[test]
fn without_frames_the_conversion_finishes() {
    assert_eq!(parsed(T, &[21, 30]), (0, 0, 2, vec![1, 2]));
    assert_eq!(parsed(S, &[3, 13]), (0, 0, 2, vec![4, 5]));
}

#[test]
fn the_edge_may_lead_to_a_branch() {
    assert_eq!(parsed("20 c30; 21 s20; 22 s21; 2 c31 s22 c32", &[1, 31, 30]), (3, 2, 5, vec![]));
}

#[test]
fn list_room() {
    let desk = Desk::grown(T);
    let answers: Vec<_> = (0..5).map(|list| Desk { list, ..desk.clone() }.refusal(&[1, 31, 30])).collect();
    assert_eq!(answers, [(7, 0, 4), (7, 0, 4), (7, 0, 4), (7, 0, 5), (0, 0, 5)]);
    let answers: Vec<_> = (3..6)
        .map(|allowance| Desk { allowance, ..desk.clone() }.refusal(&[1, 31, 30]))
        .collect();
    assert_eq!(answers, [(5, 0, 3), (5, 0, 4), (0, 0, 5)]);
}

#[test]
fn the_conversion_comes_before_the_edge_s_reduces() {
    // A reduce on the frame's edge lacks its trees; the conversion before it lacks room or nothing.
    let rules = rules("20 c30; 21 s20; 2 c31 s21; 21 s21 s21");
    let edges = [row(&[0, 0, 30, 2]), row(&[0, 0, 31, 1]), row(&[1, 1, 21, 3, 1, 4, 0])].concat();
    let desk = Desk::of(rules, vec![0, 0, 1, 3], edges);
    assert_eq!(desk.refusal(&[1, 31, 30]), (4, 0, 4));
    assert_eq!(Desk { list: 0, ..desk.clone() }.refusal(&[1, 31, 30]), (7, 0, 4));
    assert_eq!(Desk { list: 1, ..desk.clone() }.refusal(&[1, 31, 30]), (7, 0, 4));
    assert_eq!(Desk { list: 2, ..desk }.refusal(&[1, 31, 30]), (4, 0, 4));
}

#[test]
fn hand_made_tables_can_lose_a_statement() {
    let edges = [row(&[0, 0, 10, 1, 1, 1]), row(&[0, 0, 11, 2]), row(&[1, 1, 2, 1])].concat();
    let desk = Desk::of(rules("3 c10; 4 s3 c11; 2 s4"), vec![0, 0, 2], edges);
    assert_eq!(desk.refusal(&[1, 10, 11]), (3, 2, 5));
    assert_eq!(desk.verify(&[1, 10, 11], &[1, 2, 3]), 0);
}

#[test]
fn tokens_left_change_nothing() {
    assert_eq!(parsed("20 c30; 21 s20; 22 s21; 2 c31 s22 c32", &[1, 31, 30, 32]), (2, 2, 4, vec![]));
}

#[test]
fn two_conversions_are_not_made_up_for() {
    assert_eq!(parsed("20 c30; 21 s20; 22 s21; 23 s22; 2 c31 s23", &[1, 31, 30]).0, 2);
}

#[test]
fn several_frames_are_popped_one_after_the_other() {
    // Each pop reaches a leaf whose result is converted in its turn.
    let text = "20 c30; 21 s20; 22 s21; 20 c31 s22; 2 c32 s22";
    assert_eq!(parsed(text, &[1, 32, 31, 31, 30]), (0, 0, 11, vec![1, 2, 3, 4, 2, 3, 4, 2, 3, 5]));
}

/// Sentences that the published Rust answers otherwise.
#[test]
fn rows_of_the_differences() {
    assert_eq!(parsed("2 s4; 3 s2; 4 c10; 2 c11 s3", &[2, 11, 10]), (0, 0, 5, vec![3, 1, 2, 4]));
    assert_eq!(parsed("2 s4; 3 s2; 4 c14 s3; 4 c12", &[4, 14, 12]), (0, 0, 5, vec![4, 1, 2, 3]));
    assert_eq!(parsed("2 c10; 2 s4; 2 s2 s2; 3 s4; 3 s3 c10", &[3, 10, 10]), (4, 0, 4, vec![]));
    assert_eq!(
        parsed("5 c10; 2 s5; 3 s2; 2 s2 s3", &[2, 10, 10]),
        (0, 0, 6, vec![1, 2, 1, 2, 3, 4])
    );
}

#[test]
fn most_passes_frames_and_entries() {
    // 4n - 1 passes on built tables.
    let desk = Desk::grown("2 c10; 2 s2 s2");
    for after in 1..20 {
        assert_eq!(desk.parse(&[vec![3], vec![10; after]].concat()).0.passes, 4 * after as u32 - 1);
    }
    // 18n - 7 entries: five reduces on every edge, a root step after every token, and every pop by conversion.
    let edge = |words: [u32; 4]| row(&[&words[..], &[5, 1, 0, 1, 0, 1, 0, 1, 0, 1, 0]].concat());
    let edges = [edge([0, 0, 10, 1]), edge([0, 1, 2, 2]), edge([2, 1, 3, 1])].concat();
    let desk = Desk::of(rules("2 c10; 3 s2"), vec![0, 1, 0], edges);
    for after in 1..8 {
        let tokens = [vec![4], vec![10; after]].concat();
        assert_eq!(desk.refusal(&tokens), (3, after as u32, 4 * after as u32 - 1));
        let list = (0..).find(|&list| Desk { list, ..desk.clone() }.number(&tokens) == 3);
        assert_eq!(list, Some(18 * after - 7));
        let frames = (0..).find(|&frames| Desk { frames, ..desk.clone() }.number(&tokens) == 3);
        assert_eq!(frames, Some(after - 1));
    }
}
