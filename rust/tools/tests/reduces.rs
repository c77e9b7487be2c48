//! Edges with up to five reduces at any offsets, in tables made by hand: the library and the plain Rust give the same answers and the same
//! lists, in every list room up to the one that is just enough.
//!
//! Nodes stand in a row, and each edge takes the token 10. Every rule has the one typecode and spells that token only, so whatever the reduces
//! are, the list is a formula in the end: the leaf's rule takes all trees that are left, and the tokens that nothing has spelled.

use tools::bodies::numbered;
use tools::random::Random;

const CASES: usize = 3_000;
const TOKEN: u32 = 10;
/// Slots and tokens of each rule but the leaf's. Some are there twice, so that a list tells their entries apart.
const SHAPES: [(usize, usize); 9] = [(0, 1), (0, 1), (0, 1), (1, 1), (1, 1), (1, 1), (2, 0), (2, 0), (3, 0)];
const MOST_ITEMS: usize = 32;

struct Case {
    rules: Vec<u32>,
    nodes: Vec<u32>,
    edges: Vec<u32>,
    tokens: Vec<u32>,
    /// Some edge has reduces at different offsets.
    mixed: bool,
    /// A reduce asks for more trees than there are.
    few: bool,
}

fn rule((slots, tokens): (usize, usize)) -> Vec<u32> {
    numbered(2, &[vec![[1, 2]; slots], vec![[0, TOKEN]; tokens]].concat())
}

fn row(from: usize, reduces: &[[u32; 2]]) -> Vec<u32> {
    let mut row = vec![from as u32, 0, TOKEN, from as u32 + 1, reduces.len() as u32];
    row.extend(reduces.iter().flatten());
    row.resize(16, 0);
    row
}

/// None if the leaf's body would be too long.
fn case(random: &mut Random) -> Option<Case> {
    let (mut trees, mut spelled, mut mixed, mut few) = (0, 0, false, false);
    let mut edges: Vec<Vec<[u32; 2]>> = vec![];
    for _ in 0..random.between(1..=8) {
        let mut reduces = vec![];
        for _ in 0..random.below(6) {
            let at = random.below(SHAPES.len());
            let (slots, tokens) = SHAPES[at];
            if slots > trees {
                continue;
            }
            let most = trees - slots;
            let offset = if random.chance(1) { most + 1 } else { random.between(0..=most) };
            few |= offset > most;
            reduces.push([at as u32 + 1, offset as u32]);
            trees = most + 1;
            spelled += tokens;
        }
        mixed |= reduces.windows(2).any(|pair| pair[0][1] != pair[1][1]);
        edges.push(reduces);
    }
    edges.resize(edges.len().max(spelled) + 1, vec![]);
    let leaf = (trees, edges.len() - spelled);
    if leaf.0 + leaf.1 > MOST_ITEMS {
        return None;
    }
    let rows = edges.iter().enumerate().map(|(from, reduces)| row(from, reduces));
    Some(Case {
        rules: SHAPES.into_iter().chain([leaf]).flat_map(rule).collect(),
        nodes: [vec![0; edges.len()], vec![SHAPES.len() as u32 + 1]].concat(),
        edges: rows.collect::<Vec<_>>().concat(),
        tokens: [vec![1], vec![TOKEN; edges.len()]].concat(),
        mixed,
        few,
    })
}

type Outcome = ([u32; 4], Vec<u32>, Vec<u32>);

/// What comes back, every word of the list and of the work slice too.
macro_rules! parse {
    ($of:path, $case:expr, $list:expr, $work:expr) => {{
        use $of as of;
        let (mut list, mut work) = (vec![0xABAD_1DEA; $list], vec![0xABAD_1DEA; $work]);
        let allowance = 4 * $case.tokens.len() as u32;
        let c = $case;
        let a = of::parse(
            1,
            2,
            &c.rules,
            &c.nodes,
            &c.edges,
            &c.tokens,
            allowance,
            &mut [],
            &mut list,
            &mut work,
        );
        ([a.number, a.place, a.length, a.passes], list, work)
    }};
}

fn agreed(case: &Case, list: usize, work: usize) -> Outcome {
    let library: Outcome = parse!(jiehkavon::words, case, list, work);
    let plain: Outcome = parse!(plain::words, case, list, work);
    let of = |words: &[u32]| words.iter().map(u32::to_string).collect::<Vec<_>>().join(" ");
    assert_eq!(
        library,
        plain,
        "rules {}; nodes {}; edges {}; room {list} {work}",
        of(&case.rules),
        of(&case.nodes),
        of(&case.edges)
    );
    library
}

#[test]
fn every_list_room() {
    let mut random = Random::new(13);
    let (mut accepted, mut refused, mut few) = (0, 0, 0);
    for _ in 0..CASES {
        let Some(case) = case(&mut random) else { continue };
        let ([number, _, length, _], ..) = agreed(&case, 200, 200);
        assert_eq!(number, if case.few { 4 } else { 0 });
        few += u32::from(case.few);
        accepted += u32::from(case.mixed && number == 0);
        let enough = if case.few { 40 } else { length as usize };
        for room in 0..=enough {
            let ([number, ..], ..) = agreed(&case, room, enough);
            assert_eq!(agreed(&case, enough, room).0[0], number, "the shorter slice is the room");
            assert!(case.few || number == if room == enough { 0 } else { 7 });
            refused += u32::from(number == 7);
        }
    }
    assert!(
        accepted > CASES as u32 / 3 && few > CASES as u32 / 50 && refused > CASES as u32,
        "{accepted} {few} {refused}"
    );
}
