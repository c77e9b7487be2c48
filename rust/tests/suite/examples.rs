//! Garden paths, as data that the tests of the library and of the plain Rust share: whole trees, and each refusal with its smallest input.
#![allow(dead_code)]

/// Tokens; answer, place, passes; list.
pub type Sentence = (&'static [u32], (u32, u32, u32), &'static [u32]);

pub struct Example {
    pub rules: &'static str,
    pub commands: &'static [u32],
    /// The edges that each path takes up.
    pub taken: &'static [usize],
    pub nodes: &'static [u32],
    /// From, key and end; then the reduces, each a rule and an offset.
    pub edges: &'static str,
    pub sentences: &'static [Sentence],
}

pub const EXAMPLES: [Example; 15] = [
    // E1: no command; then the conversions alone
    Example {
        rules: "2 c10; 2 c5 s3; 3 s4; 4 c12",
        commands: &[],
        taken: &[],
        nodes: &[0, 1, 0, 2, 4],
        edges: "0 c5 2; 0 c10 1; 0 c12 4; 2 s3 3; 2 s4 3 3@0",
        sentences: &[(&[1, 5, 12], (0, 0, 5), &[4, 3, 2])],
    },
    Example {
        rules: "2 c10; 2 c5 s3; 3 s4; 4 c12",
        commands: &[2],
        taken: &[],
        nodes: &[0, 1, 0, 2, 4],
        edges: "0 c5 2; 0 c10 1; 0 c12 4; 2 s3 3; 2 s4 3 3@0",
        sentences: &[(&[1, 5, 12], (0, 0, 5), &[4, 3, 2])],
    },
    // E2: with no path; then a branch is copied and a leaf leads to the shadow
    Example {
        rules: "3 c20; 2 c21; 2 s3 c8 s3; 3 c5 s3 c9 s3 c6; 2 c5 s2 c7 s2 c6",
        commands: &[],
        taken: &[],
        nodes: &[0, 1, 2, 0, 0, 3, 0, 0, 0, 0, 4, 0, 0, 0, 5],
        edges: "0 c5 6; 0 c20 1; 0 c21 2; 0 s3 3; 3 c8 4; 4 s3 5; 6 s2 11; 6 s3 7; 7 c9 8; 8 s3 9; 9 c6 10; 11 c7 12; 12 s2 13; 13 c6 14",
        sentences: &[(&[1, 5, 20, 8, 20, 7, 21, 6], (2, 3, 6), &[]), (&[3, 5, 20, 9, 20, 6], (0, 0, 10), &[1, 1, 4])],
    },
    Example {
        rules: "3 c20; 2 c21; 2 s3 c8 s3; 3 c5 s3 c9 s3 c6; 2 c5 s2 c7 s2 c6",
        commands: &[1, 2, 2, 0, 5, 1, 3, 0, 5, 1, 2],
        taken: &[2],
        nodes: &[0, 1, 2, 0, 0, 3, 0, 0, 0, 0, 4, 0, 0, 0, 5, 0],
        edges: "0 c5 6; 0 c20 1; 0 c21 2; 0 s3 3; 3 c8 4; 4 s3 5; 6 s2 11; 6 s3 7; 7 c8 15; 7 c9 8; 8 s3 9; 9 c6 10; 11 c7 12; 12 s2 13; 13 c6 14; 15 s3 11 3@0",
        sentences: &[(&[1, 5, 20, 8, 20, 7, 21, 6], (0, 0, 14), &[1, 1, 3, 2, 5]), (&[3, 5, 20, 9, 20, 6], (0, 0, 10), &[1, 1, 4])],
    },
    // E3: conversions between two paths; the second place is a leaf and a reduce is missing
    Example {
        rules: "3 c20; 2 c21; 2 s3 c8 s3; 3 c5 s3 c9 s3 c6; 2 c5 s2 c7 s2 c6; 4 c22; 3 s4; 3 c5 s4 c8 s3 c10 s3 c6",
        commands: &[1, 2, 2, 0, 5, 1, 3, 0, 5, 1, 2, 2],
        taken: &[2],
        nodes: &[0, 1, 2, 0, 0, 3, 0, 0, 0, 0, 4, 0, 0, 0, 5, 6, 0, 0, 0, 0, 0, 8, 0],
        edges: "0 c5 6; 0 c20 1; 0 c21 2; 0 c22 15; 0 s3 3; 0 s4 3 7@0; 3 c8 4; 4 s3 5; 4 s4 5 7@0; 6 s2 11; 6 s3 7; 6 s4 16; 7 c8 22; 7 c9 8; 8 s3 9; 8 s4 9 7@0; 9 c6 10; 11 c7 12; 12 s2 13; 13 c6 14; 16 c8 17; 16 c9 8 7@0; 17 s3 18; 17 s4 18 7@0; 18 c10 19; 19 s3 20; 19 s4 20 7@0; 20 c6 21; 22 s3 11 3@0; 22 s4 11 7@0 3@0",
        sentences: &[(&[1, 5, 22, 8, 20, 7, 21, 6], (2, 5, 10), &[]), (&[3, 5, 22, 8, 20, 10, 20, 6], (0, 0, 14), &[6, 1, 1, 8]), (&[1, 5, 22, 8, 22, 7, 22, 8, 22, 6], (2, 5, 10), &[])],
    },
    Example {
        rules: "3 c20; 2 c21; 2 s3 c8 s3; 3 c5 s3 c9 s3 c6; 2 c5 s2 c7 s2 c6; 4 c22; 3 s4; 3 c5 s4 c8 s3 c10 s3 c6",
        commands: &[1, 2, 2, 0, 5, 1, 3, 0, 5, 1, 2, 2, 1, 4, 2, 0, 5, 1, 4, 0, 8, 1, 3, 0, 5, 1, 2],
        taken: &[2, 0],
        nodes: &[0, 1, 2, 0, 0, 3, 0, 0, 0, 0, 4, 0, 0, 0, 5, 6, 0, 0, 0, 0, 0, 8, 0],
        edges: "0 c5 6; 0 c20 1; 0 c21 2; 0 c22 15; 0 s3 3; 0 s4 3 7@0; 3 c8 4; 4 s3 5; 4 s4 5 7@0; 6 s2 11; 6 s3 7; 6 s4 16; 7 c8 22; 7 c9 8; 8 s3 9; 8 s4 9 7@0; 9 c6 10; 11 c7 12; 12 s2 13; 13 c6 14; 16 c8 17; 16 c9 8 7@0; 17 s3 18; 17 s4 18 7@0; 18 c7 12 7@1 3@0; 18 c10 19; 19 s3 20; 19 s4 20 7@0; 20 c6 21; 22 s3 11 3@0; 22 s4 11 7@0 3@0",
        sentences: &[(&[1, 5, 22, 8, 20, 7, 21, 6], (0, 0, 14), &[6, 7, 1, 3, 2, 5]), (&[3, 5, 22, 8, 20, 10, 20, 6], (0, 0, 14), &[6, 1, 1, 8]), (&[1, 5, 22, 8, 22, 7, 22, 8, 22, 6], (0, 0, 19), &[6, 7, 6, 7, 3, 6, 7, 6, 7, 3, 5])],
    },
    // E4: rows copied behind an edge that was there; a reduce is stored
    Example {
        rules: "3 c20; 4 c22; 3 s4; 3 c5 s3 c6; 3 c7 s3 c8 s3 c9; 3 c5 c7 s4 c8 s4 c9 c11 s3 c6",
        commands: &[2, 1, 2, 2, 0, 5, 0, 7, 0, 5, 1, 3],
        taken: &[12],
        nodes: &[0, 1, 2, 0, 0, 4, 0, 0, 0, 0, 5, 0, 0, 0, 0, 0, 0, 0, 6, 0, 0, 0, 0, 0],
        edges: "0 c5 3; 0 c7 6; 0 c20 1; 0 c22 2; 3 c7 11; 3 s3 4; 3 s4 4 3@0; 4 c6 5; 6 s3 7; 6 s4 7 3@0; 7 c8 8; 8 s3 9; 8 s4 9 3@0; 9 c9 10; 11 s3 19; 11 s4 12; 12 c8 13; 13 s3 23; 13 s4 14; 14 c9 15; 15 c6 5 3@1 3@0 5@0; 15 c11 16; 16 s3 17; 16 s4 17 3@0; 17 c6 18; 19 c8 20; 20 s3 21; 20 s4 22 3@0; 21 c9 4 5@0; 22 c9 4 5@0; 23 c9 4 3@1 5@0",
        sentences: &[(&[3, 5, 7, 22, 8, 22, 9, 6], (0, 0, 12), &[2, 3, 2, 3, 5, 4]), (&[3, 5, 7, 22, 8, 22, 9, 11, 20, 6], (0, 0, 16), &[2, 2, 1, 6]), (&[3, 5, 7, 20, 8, 22, 9, 6], (0, 0, 12), &[1, 2, 3, 5, 4])],
    },
    // E5: raised behind a variable
    Example {
        rules: "2 c10 s2 s2; 2 c10 c11 c10; 2 c11; 2 c12",
        commands: &[1, 2, 2, 0, 10, 0, 11, 0, 10, 1, 2],
        taken: &[0],
        nodes: &[0, 0, 0, 1, 0, 2, 3, 4],
        edges: "0 c10 1; 0 c11 6; 0 c12 7; 1 c11 4; 1 s2 2; 2 s2 3; 4 c10 5; 4 s2 3 3@1",
        sentences: &[(&[1, 10, 11, 12], (0, 0, 6), &[3, 4, 1])],
    },
    // E6: a key stays as it was
    Example {
        rules: "2 c10 s2 c11; 2 c12; 2 c10 c12 c11 c10",
        commands: &[1, 2, 2, 0, 10, 0, 12, 0, 10, 1, 2],
        taken: &[0],
        nodes: &[0, 0, 0, 1, 2, 0, 0, 3],
        edges: "0 c10 1; 0 c12 4; 1 c12 5; 1 s2 2; 2 c11 3; 5 c11 6; 6 c10 7",
        sentences: &[(&[1, 10, 12, 11], (3, 3, 4), &[])],
    },
    // E7: all rows skipped
    Example {
        rules: "2 c10 s2; 2 c10 c10 c10",
        commands: &[1, 3, 2, 0, 10, 0, 10, 0, 10, 0, 10, 1, 2],
        taken: &[1],
        nodes: &[0, 0, 1, 0, 2],
        edges: "0 c10 1; 1 c10 3; 1 s2 2; 3 c10 4",
        sentences: &[],
    },
    // E8: another typecode than the shadow wants
    Example {
        rules: "2 c10 c10 c10; 2 c10 s3 c10; 3 c11",
        commands: &[1, 2, 2, 0, 10, 0, 10, 0, 10, 1, 3],
        taken: &[3],
        nodes: &[0, 0, 0, 1, 0, 2, 3, 0],
        edges: "0 c10 1; 0 c11 6; 1 c10 2; 1 s3 4; 2 c10 3; 2 s3 7; 4 c10 5; 7 c10 4 2@0",
        sentences: &[(&[2, 10, 10, 11, 10, 10], (4, 0, 8), &[])],
    },
    // E9: reduced too late
    Example {
        rules: "2 c10; 3 c11; 2 s3; 2 c5 s2 c6; 2 c7 s2 s2; 2 c5 c7 c7 s3 c6; 2 c7 c7 c10",
        commands: &[2, 1, 2, 2, 0, 7, 0, 7, 0, 7, 1, 2, 1, 2, 2, 0, 5, 0, 7, 0, 5, 1, 2],
        taken: &[7, 22],
        nodes: &[0, 1, 2, 0, 0, 4, 0, 0, 5, 0, 0, 0, 6, 0, 7, 0, 0, 0, 0, 0, 0, 0, 0, 0],
        edges: "0 c5 3; 0 c7 6; 0 c10 1; 0 c11 2; 3 c7 9; 3 s2 4; 3 s3 4 3@0; 4 c6 5; 6 c7 13; 6 s2 7; 6 s3 7 3@0; 7 s2 8; 7 s3 8 3@0; 9 c7 10; 9 s2 22; 9 s3 23 3@0; 10 c10 4 7@0; 10 s2 17; 10 s3 11; 11 c6 12; 11 s2 20 5@0; 11 s3 21 3@0 5@0; 13 c10 14; 13 s2 15; 13 s3 16 3@0; 15 s2 7 5@0; 15 s3 7 3@0 5@0; 16 s2 7 5@0; 16 s3 7 3@0 5@0; 17 s2 18 5@0; 17 s3 19 3@0 5@0; 18 s2 4 5@0; 18 s3 4 3@0 5@0; 19 s2 4 5@0; 19 s3 4 3@0 5@0; 20 s2 4 3@2 5@0; 20 s3 4 3@0 3@2 5@0; 21 s2 4 3@2 5@0; 21 s3 4 3@0 3@2 5@0; 22 s2 4 5@0; 22 s3 4 3@0 5@0; 23 s2 4 5@0; 23 s3 4 3@0 5@0",
        sentences: &[(&[2, 5, 7, 7, 11, 10, 10, 6], (4, 0, 12), &[])],
    },
    // rows are taken up in the order of their keys: in that of their making, nodes 6 and 7 are the other way round
    Example {
        rules: "2 c10 s3 s2; 3 c10 c10 c10; 3 s2",
        commands: &[2, 1, 2, 2, 0, 10, 0, 10, 0, 10, 1, 3],
        taken: &[5],
        nodes: &[0, 0, 0, 1, 0, 2, 0, 0],
        edges: "0 c10 1; 1 c10 4; 1 s2 2 3@0; 1 s3 2; 2 s2 3; 4 c10 5; 4 s2 6 3@0; 4 s3 7; 6 s2 2 1@0; 7 s2 2 1@0",
        sentences: &[],
    },
    // a path that reads what it writes; in the order of their making, the last edge is 5 s3 5 1@1
    Example {
        rules: "2 s3 s3; 2 c10 s3 s3 s2; 3 s2",
        commands: &[2, 1, 2, 2, 0, 10, 1, 2, 0, 10, 1, 3],
        taken: &[2],
        nodes: &[0, 0, 1, 0, 0, 0, 2],
        edges: "0 c10 3; 0 s2 1 3@0; 0 s3 1; 1 s2 2 3@0; 1 s3 2; 3 s2 4 3@0; 3 s3 4; 4 s2 5 3@0; 4 s3 5; 5 s2 6; 5 s3 5 3@1 1@1",
        sentences: &[],
    },
    // two such paths; in the order of their making there are 18 edges, and the sentence is accepted with 3 1 2 5 4 2 in 20 passes
    Example {
        rules: "3 c12; 2 c10 s3 c11; 3 c11; 3 c10 s3 c12 c10; 3 c10 c10 s3 s2; 2 c10 s2 c10",
        commands: &[1, 2, 2, 0, 10, 0, 10, 0, 10, 1, 3, 1, 2, 2, 0, 10, 0, 10, 0, 10, 1, 2],
        taken: &[7, 8],
        nodes: &[0, 1, 0, 0, 2, 3, 0, 4, 0, 0, 5, 0, 6, 0, 0],
        edges: "0 c10 2; 0 c11 5; 0 c12 1; 2 c10 8; 2 s2 11; 2 s3 3; 3 c10 12 6@0; 3 c11 4; 3 c12 6; 6 c10 7; 8 s2 13; 8 s3 9; 9 c10 11 6@0 6@0; 9 c11 3 2@0; 9 c12 14; 9 s2 10; 11 c10 12; 13 c10 3 6@0; 14 c10 3 4@0",
        sentences: &[(&[1, 10, 10, 10, 10, 11, 10, 12, 11, 12, 10, 11], (2, 7, 12), &[])],
    },
];

/// What is refused, the number, rules, commands, and the counts of nodes and edges when it is.
pub type Refused = (&'static str, u32, &'static str, &'static [u32], (usize, usize));

pub const REFUSED: [Refused; 23] = [
    (
        "a collision comes before the commands",
        11,
        "2 c10; 2 c10",
        &[1, 1, 1, 0, 10, 0, 11],
        (2, 1),
    ),
    (
        "a copy that copies itself",
        12,
        "2 c10 c10 s2; 2 c10 c10 c10 s2",
        &[1, 3, 3, 0, 10, 0, 10, 0, 10, 0, 10, 0, 10, 1, 2],
        (8192, 8191),
    ),
    (
        "six reduces in a list that nothing takes",
        14,
        "3 s4 c8; 2 c5 s3 c9; 2 c5 s24 c8 c9; 4 s20; 20 s21; 21 s22; 22 s23; 23 s24",
        &[2, 1, 2, 2, 0, 5, 1, 24, 0, 5, 1, 3],
        (9, 13),
    ),
    (
        "an offset past 255",
        15,
        "2 s2 s2; 2 c10 s2 c11; 2 s4; 2 c10 c10 s4 c12",
        &[2, 1, 2, 2, 0, 10, 1, 4, 0, 10, 1, 2, 1, 3, 2, 0, 10, 0, 10, 1, 4, 0, 10, 1, 2],
        (264, 524),
    ),
    ("no such command", 16, "2 c10", &[3], (2, 1)),
    ("no such kind of item", 16, "2 c10 s2; 2 c11", &[1, 1, 1, 2, 10, 1, 2], (4, 3)),
    ("fewer pairs than P says", 16, "2 c10 s2; 2 c11", &[1, 2, 1, 0, 10, 1, 2], (4, 3)),
    (
        "no place where the lists part",
        16,
        "2 c10 s2; 2 c11",
        &[1, 1, 2, 0, 10, 0, 10, 1, 2],
        (4, 3),
    ),
    (
        "a slot before the lists part",
        16,
        "2 s2 s2; 2 c11",
        &[1, 2, 2, 1, 2, 0, 10, 1, 2, 1, 2],
        (4, 3),
    ),
    (
        "a leaf before the lists part",
        16,
        "2 c10",
        &[1, 3, 3, 0, 10, 0, 11, 0, 11, 0, 10, 0, 11, 1, 2],
        (2, 1),
    ),
    (
        "the prefix leaves the tree",
        16,
        "2 c10 s2",
        &[1, 2, 2, 0, 10, 0, 10, 0, 10, 1, 2],
        (3, 2),
    ),
    (
        "the shadow leaves the tree",
        16,
        "2 c10 c10",
        &[1, 2, 2, 0, 10, 0, 10, 0, 10, 1, 2],
        (3, 2),
    ),
    (
        "the lists part at a constant of the shadow",
        16,
        "2 c10 c10; 2 c10 s2",
        &[1, 2, 2, 0, 10, 1, 2, 0, 10, 0, 10],
        (4, 3),
    ),
    (
        "the rest of the prefix is not at node 0",
        16,
        "2 c11 s2; 2 c11 c10 c10",
        &[1, 2, 2, 0, 11, 0, 10, 0, 11, 1, 2],
        (5, 4),
    ),
    (
        "the same, though it begins there",
        16,
        "2 c11 s2; 2 c11 c10 c10 c10; 2 c10 s2",
        &[1, 3, 2, 0, 11, 0, 10, 0, 10, 0, 11, 1, 2],
        (8, 7),
    ),
    (
        "the place to copy to reduces what the source does not",
        16,
        "2 c10 s2; 2 s4; 2 s4 c11; 2 c10 s3 c12",
        &[2, 1, 2, 2, 0, 10, 1, 4, 0, 10, 1, 3],
        (7, 7),
    ),
    (
        "rows copied to a leaf",
        16,
        "2 c10 s2 c11; 2 c12 c13; 2 c10 c12 c13",
        &[1, 2, 2, 0, 10, 0, 12, 0, 10, 1, 2],
        (8, 7),
    ),
    (
        "rows copied from a leaf",
        16,
        "2 c10 s2; 2 c12; 2 c10 c12 c13",
        &[1, 2, 2, 0, 10, 0, 12, 0, 10, 1, 2],
        (6, 5),
    ),
    (
        "clones into a leaf",
        16,
        "2 c10 s2 c11; 2 c12 c13; 2 c10 c12",
        &[1, 2, 2, 0, 10, 0, 12, 0, 10, 1, 2],
        (7, 6),
    ),
    (
        "clones of a node into itself",
        16,
        "2 s2 c11; 2 s3 c11",
        &[1, 1, 1, 1, 2, 1, 3],
        (5, 4),
    ),
    (
        "a path run again",
        16,
        "2 c10 s3; 2 c10 c13 c13; 3 c13 s2",
        &[1, 2, 2, 0, 10, 0, 13, 0, 10, 1, 3, 1, 2, 2, 0, 10, 0, 13, 0, 10, 1, 3],
        (7, 7),
    ),
    ("conversions run again", 16, "2 c5 s3; 3 s4", &[2, 2], (3, 3)),
    (
        "a circle in the source and in the copy",
        17,
        "2 s2 c11; 2 c10 s2 s2; 2 s4; 2 c10 c10 s2 s2",
        &[
            2, 1, 2, 2, 0, 10, 1, 4, 0, 10, 1, 2, 1, 3, 3, 0, 10, 0, 10, 1, 4, 0, 10, 0, 10, 1, 2, 1, 3, 2, 0, 10, 0, 10, 1, 2, 0, 10, 1, 2,
        ],
        (9, 15),
    ),
];
