//! All that a side says of a set, as lines, so that two builds of the library can be held against each other: they can't be in one program.

use crate::held::{grow, grow_in, size, tree_of, Desk, Grown, Tally, Verdict};
use crate::oracle::{Asked, Tree};
use crate::sides::Side;
use crate::trees::{relation, Relation};
use jiehkavon::limits::{MOST_NODES, ROW_WIDTH};
use plain::Room;
use std::fmt::{self, Display};

/// How many shorter edge tables a set without commands is built in.
const SHORTER: usize = 8;

#[derive(Clone, Debug, Default, PartialEq, Eq)]
pub struct Told {
    pub number: u32,
    /// The numbers of builds with less room for edges.
    pub shorter: Vec<u32>,
    pub tree: Tree,
    /// Of each statement number, place and passes, then the list.
    pub parses: Vec<Vec<u32>>,
}

impl Told {
    pub fn of(side: &Side, asked: &Asked) -> Told {
        let set = &asked.set;
        let rules = set.words();
        let grown = grow(side, set, &rules);
        let mut tree = tree_of(set, &grown).unwrap_or_default();
        // builds before request 7 have them in another order
        tree.edges.sort();
        let shorter = shorter_rooms(asked, &grown)
            .map(|room| grow_in(side, set, &rules, room).number)
            .collect();
        let desk = Desk {
            side,
            set,
            rules: &rules,
            grown: &grown,
            relation: Relation::Equal,
        };
        let statements = if grown.number == 0 { &asked.statements[..] } else { &[] };
        Told {
            number: grown.number,
            shorter,
            tree,
            parses: statements.iter().map(|tokens| desk.told(tokens)).collect(),
        }
    }

    /// What lines tell, up to the line `end`.
    pub fn read<'a>(lines: &mut impl Iterator<Item = &'a str>) -> Result<Told, String> {
        let mut told = Told::default();
        let mut rows = Vec::new();
        loop {
            let line = lines.next().ok_or("the answers are cut")?;
            let (verb, rest) = line.split_once(' ').unwrap_or((line, ""));
            match verb {
                "end" => break,
                "build" => told.number = numbers(rest)?.first().copied().ok_or("no number")?,
                "shorter" => told.shorter = numbers(rest)?,
                "parse" => told.parses.push(numbers(rest)?),
                _ => rows.push(line.to_string()),
            }
        }
        told.tree = Tree::read(&rows)?;
        Ok(told)
    }
}

fn numbers(text: &str) -> Result<Vec<u32>, String> {
    let number = |word: &str| word.parse().map_err(|_| format!("no number: {word}"));
    text.split_ascii_whitespace().map(number).collect()
}

fn shorter_rooms(asked: &Asked, grown: &Grown) -> impl Iterator<Item = Room> {
    let items: usize = asked.set.rules.iter().map(|rule| rule.body.len()).sum();
    let edges = if grown.number == 0 { grown.edges.len() / ROW_WIDTH } else { items };
    let count = if asked.set.commands.is_empty() { SHORTER } else { 0 };
    let nodes = (items + 1).min(MOST_NODES);
    (1..=count).map(move |at| Room {
        nodes,
        edges: edges * at / (SHORTER + 1),
        frames: 0,
    })
}

fn words(words: &[u32]) -> String {
    words.iter().map(|word| format!(" {word}")).collect()
}

impl Display for Told {
    fn fmt(&self, f: &mut fmt::Formatter) -> fmt::Result {
        write!(f, "build {}\nshorter{}\n{}", self.number, words(&self.shorter), self.tree)?;
        for parse in &self.parses {
            writeln!(f, "parse{}", words(parse))?;
        }
        writeln!(f, "end")
    }
}

/// Counts how the answers of before and of now stand to each other. Same is what has to be, Listed what may be where there are commands or where the
/// room for edges is short, Found the rest.
pub fn compare(name: &str, asked: &Asked, before: &Told, now: &Told, tally: &mut Tally) {
    let commands = !asked.set.commands.is_empty();
    let may = if commands { Verdict::Listed } else { Verdict::Found };
    let mut note = |verdict, pair: String, tokens: &[u32]| {
        tally.note(verdict, pair, size(&asked.set, tokens), || {
            crate::held::told(name, &asked.set, (!tokens.is_empty()).then_some(tokens), "")
        })
    };
    for (before, now) in before.shorter.iter().zip(&now.shorter).filter(|(before, now)| before != now) {
        let verdict = if [[13, 14], [14, 13]].contains(&[*before, *now]) {
            Verdict::Listed
        } else {
            Verdict::Found
        };
        note(verdict, format!("short of edges: {before} before, {now} now"), &[]);
    }
    if before.number != now.number {
        return note(may, format!("build: {} before, {} now", before.number, now.number), &[]);
    }
    let (verdict, same) = match relation(&now.tree, &before.tree) {
        Relation::Equal => (Verdict::Same, "the same tree"),
        Relation::Renumbered => (may, "other numbers of nodes"),
        Relation::Raised | Relation::Other => (may, "another tree"),
    };
    note(verdict, format!("build: {}, {same}", now.number), &[]);
    for ((tokens, before), now) in asked.statements.iter().zip(&before.parses).zip(&now.parses) {
        match before == now {
            true => note(Verdict::Same, "statement: the same answer".to_string(), tokens),
            false => note(may, format!("statement: {} before, {} now", before[0], now[0]), tokens),
        }
    }
}

#[cfg(test)]
mod tests {
    use super::{compare, Told};
    use crate::held::{Tally, Verdict};
    use crate::oracle::{take_question, Asked};
    use crate::sides::PLAIN;

    fn asked(commands: &str) -> Asked {
        let lines = format!("set 1 2\nrule 2 1 0 11\nrule 2 1 0 10\nrule 2 2 0 12 1 2{commands}\nparse 1 10\nparse 1 12 11\nparse 1 12");
        let mut asked = Vec::new();
        lines.lines().for_each(|line| take_question(&mut asked, line).expect("a question"));
        asked.pop().expect("a set")
    }

    /// What is counted, save what is the same.
    fn counted(asked: &Asked, before: &Told, now: &Told) -> Vec<(Verdict, String)> {
        let mut tally = Tally::default();
        compare("here", asked, before, now, &mut tally);
        let pairs = tally.pairs.into_keys();
        pairs.filter(|(verdict, _)| *verdict != Verdict::Same).collect()
    }

    #[test]
    fn what_is_told_is_read_again() {
        let told = Told::of(&PLAIN, &asked(""));
        let text = told.to_string();
        assert_eq!(Told::read(&mut text.lines()), Ok(told.clone()));
        assert_eq!((told.number, told.tree.edges.len(), told.parses.len()), (0, 4, 3));
        assert_eq!(told.parses, [vec![0, 0, 2, 2], vec![0, 0, 5, 1, 3], vec![3, 1, 2]]);
        for end in 0..text.lines().count() {
            assert!(Told::read(&mut text.lines().take(end)).is_err(), "cut at {end}");
        }
    }

    #[test]
    fn what_differs_is_counted() {
        let found = |what: &str| (Verdict::Found, what.to_string());
        let listed = |what: &str| (Verdict::Listed, what.to_string());
        for (asked, verdict) in [(asked(""), Verdict::Found), (asked("\nconv"), Verdict::Listed)] {
            let now = Told::of(&PLAIN, &asked);
            let differing = |change: &dyn Fn(&mut Told)| {
                let mut before = now.clone();
                change(&mut before);
                counted(&asked, &before, &now)
            };
            assert_eq!(differing(&|_| ()), []);
            assert_eq!(
                differing(&|told| told.number = 12),
                [(verdict, "build: 12 before, 0 now".to_string())]
            );
            assert_eq!(
                differing(&|told| told.parses[1][2] = 9),
                [(verdict, "statement: 0 before, 0 now".to_string())]
            );
            assert_eq!(
                differing(&|told| told.parses[2][0] = 2),
                [(verdict, "statement: 2 before, 3 now".to_string())]
            );
            assert_eq!(
                differing(&|told| told.tree.edges[0].to = 1),
                [(verdict, "build: 0, another tree".to_string())]
            );
            let swapped = |told: &mut Told| {
                told.tree.nodes.swap(1, 2);
                told.tree.edges[0].to = 1;
                told.tree.edges[1].to = 2;
            };
            assert_eq!(differing(&swapped), [(verdict, "build: 0, other numbers of nodes".to_string())]);
        }
        let asked = asked("");
        let now = Told::of(&PLAIN, &asked);
        let short = |number: u32| {
            let with = |number| Told {
                shorter: vec![number],
                ..now.clone()
            };
            counted(&asked, &with(number), &with(13))
        };
        assert_eq!(short(13), []);
        assert_eq!(short(14), [listed("short of edges: 14 before, 13 now")]);
        assert_eq!(short(12), [found("short of edges: 12 before, 13 now")]);
    }
}
