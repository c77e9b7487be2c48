//! Slips that trainees made, each with the smallest rules that show it.

mod desk;

use desk::{build_number, row, rules, Desk, S};

#[test]
fn place_is_the_last_noted_token() {
    assert_eq!(Desk::grown(S).refusal(&[1, 10, 10]), (2, 1, 2));
}

#[test]
fn copied_edge_does_not_replace() {
    let desk = Desk::grown("2 s3 c8; 2 s4 c8; 3 s4");
    let of_branches: Vec<_> = desk.rows().into_iter().filter(|row| row[0] == 3).collect();
    assert_eq!(of_branches, [row(&[3, 0, 8, 4])]);
}

#[test]
fn offset_is_raised_on_variable_edges_alone() {
    let desk = Desk::grown("2 s3 s5 c8; 2 s3 c7; 2 s4 c9; 3 s4");
    let of_m: Vec<_> = desk.rows().into_iter().filter(|row| row[0] == 5).collect();
    assert_eq!(of_m, [row(&[5, 0, 7, 4, 1, 4, 0]), row(&[5, 0, 9, 6]), row(&[5, 1, 5, 2, 1, 4, 1])]);
}

#[test]
fn raised_offset_converts_the_tree_below() {
    let desk = Desk::grown("2 s3 s5 c8; 2 s4 c9; 3 s4; 4 c13; 5 c12");
    assert_eq!(desk.parse(&[1, 13, 12, 8]).1, [4, 3, 5, 1]);
}

#[test]
fn empty_body_is_refused() {
    let mut words = rules("2 c10");
    words.extend([2, 0]);
    assert_eq!(desk::build_in(&words, 10, 160).built.number, 10);
}

#[test]
fn no_finish_with_frames_left() {
    // The frame takes the converted tree, and its rule still wants a token.
    let desk = Desk::grown("2 c31 s3 c32; 4 c30; 5 s4; 3 s5");
    assert_eq!(desk.refusal(&[1, 31, 30]), (3, 2, 5));
}

#[test]
fn conversion_into_a_frame_without_need_of_more() {
    // Here the edge exists, so nothing is finished early and the walk ends at a branch.
    let desk = Desk::grown("2 c31 s3 c32; 4 c30; 3 s4");
    assert_eq!(desk.refusal(&[1, 31, 30]), (3, 2, 5));
}

#[test]
fn conversion_finishes_only_at_the_end() {
    assert_eq!(Desk::grown(S).refusal(&[3, 13, 8, 12]), (2, 3, 7));
}

#[test]
fn first_conversion_in_rule_order_finishes() {
    assert_eq!(Desk::grown("4 c13; 2 s4; 2 s4").parse(&[1, 13]).1, [1, 2]);
}

#[test]
fn no_collision_without_a_common_beginning() {
    assert_eq!(build_number("2 c10 c11; 2 c10 c12; 2 c11"), 0);
}
