//! Rule sets written short, and calls that look at every word lent.
#![allow(dead_code)]

use plain::{Answer, Built};

/// `2 c5 s3; 3 c7 s2:9` is a rule with result 2 and a body of constant 5 and slot 3, and another, whose slot has variable 9. Slots that name none
/// have the variables 1, 2, 3 and so on.
pub fn rules(text: &str) -> Vec<u32> {
    text.split(';').filter(|rule| !rule.trim().is_empty()).flat_map(rule).collect()
}

fn rule(text: &str) -> Vec<u32> {
    let mut parts = text.split_whitespace();
    let result = parts.next().expect("a result").parse().expect("a number");
    let mut slots = 0;
    let items: Vec<[u32; 3]> = parts.map(|text| item(text, &mut slots)).collect();
    [vec![result, items.len() as u32], items.concat()].concat()
}

fn item(text: &str, slots: &mut u32) -> [u32; 3] {
    let number = |text: &str| text.parse().expect("a number");
    let (kind, symbol) = text.split_at(1);
    if kind == "c" {
        return [0, number(symbol), 0];
    }
    *slots += 1;
    match symbol.split_once(':') {
        Some((typecode, variable)) => [1, number(typecode), number(variable)],
        None => [1, number(symbol), *slots],
    }
}

pub const S: &str = "2 c10; 2 c11; 3 c12; 4 c13; 3 s4; 2 c14 s2; 2 c5 s2 c7 s2 c6; 2 s3 c8 s3; 2 s3 c9 s3";
pub const T: &str = "20 c30; 21 s20; 22 s21; 2 c31 s22";
pub const GARBAGE: u32 = 0xdead_beef;

/// A build's answer and the words of both tables.
pub struct Grown {
    pub built: Built,
    pub nodes: Vec<u32>,
    pub edges: Vec<u32>,
}

pub fn build_in(rules: &[u32], nodes: usize, edges: usize) -> Grown {
    build_with(rules, &[], 0, nodes, edges)
}

/// Room in words.
pub fn build_with(rules: &[u32], commands: &[u32], frames: usize, nodes: usize, edges: usize) -> Grown {
    let [mut frames, mut nodes, mut edges] = [frames, nodes, edges].map(|length| vec![GARBAGE; length]);
    let built = plain::build(1, 2, rules, commands, &mut nodes, &mut edges, &mut frames);
    let zero_from = |words: &[u32], from: u32| words[from as usize..].iter().all(|&word| word == 0);
    assert!(
        zero_from(&frames, 0) && zero_from(&nodes, built.nodes) && zero_from(&edges, 16 * built.edges),
        "zeros past the rows"
    );
    assert!(
        built.number == 0 || (built.nodes, built.edges) == (0, 0),
        "no counts with a refusal"
    );
    Grown { built, nodes, edges }
}

/// The number that a build with ample room answers.
pub fn build_number(text: &str) -> u32 {
    build_in(&rules(text), 9_000, 16 * 17_000).built.number
}

/// A grammar as a caller holds it, with the rooms that a parse gets.
#[derive(Clone)]
pub struct Desk {
    pub rules: Vec<u32>,
    pub nodes: Vec<u32>,
    pub edges: Vec<u32>,
    pub allowance: u32,
    pub frames: usize,
    pub list: usize,
    pub work: usize,
}

impl Desk {
    pub fn grown(text: &str) -> Desk {
        Desk::grown_with(text, &[])
    }

    pub fn grown_with(text: &str, commands: &[u32]) -> Desk {
        let rules = rules(text);
        let mut grown = build_with(&rules, commands, 16 * 100, 9_000, 16 * 17_000);
        assert_eq!(grown.built.number, 0, "{text}");
        grown.nodes.truncate(grown.built.nodes as usize);
        grown.edges.truncate(16 * grown.built.edges as usize);
        Desk::of(rules, grown.nodes, grown.edges)
    }

    pub fn of(rules: Vec<u32>, nodes: Vec<u32>, edges: Vec<u32>) -> Desk {
        Desk {
            rules,
            nodes,
            edges,
            allowance: 200_000,
            frames: 33_000,
            list: 100_000,
            work: 100_000,
        }
    }

    pub fn rows(&self) -> Vec<[u32; 16]> {
        self.edges
            .chunks_exact(16)
            .map(|row| row.try_into().expect("sixteen words"))
            .collect()
    }

    /// The answer and the list; panics if a lent word is not as it should be.
    pub fn parse(&self, tokens: &[u32]) -> (Answer, Vec<u32>) {
        let [mut frames, mut list, mut work] = [self.frames, self.list, self.work].map(|length| vec![GARBAGE; length]);
        let (rules, nodes, edges) = (&self.rules, &self.nodes, &self.edges);
        let answer = plain::parse(1, 2, rules, nodes, edges, tokens, self.allowance, &mut frames, &mut list, &mut work);
        let rest = list.split_off(answer.length as usize);
        assert!([frames, work, rest].concat().iter().all(|&word| word == 0), "lent words are zero");
        assert!(answer.number == 0 || answer.length == 0, "no length with a refusal");
        (answer, list)
    }

    /// Number, place, passes.
    pub fn refusal(&self, tokens: &[u32]) -> (u32, u32, u32) {
        let (answer, _) = self.parse(tokens);
        (answer.number, answer.place, answer.passes)
    }

    pub fn number(&self, tokens: &[u32]) -> u32 {
        self.parse(tokens).0.number
    }

    pub fn verify(&self, tokens: &[u32], list: &[u32]) -> u32 {
        verify(&self.rules, tokens, list, list.len())
    }
}

pub fn verify(rules: &[u32], tokens: &[u32], list: &[u32], work: usize) -> u32 {
    let mut work = vec![GARBAGE; work];
    let answer = plain::verify(1, 2, rules, tokens, list, &mut work);
    assert!(work.iter().all(|&word| word == 0), "the work slice is zero");
    assert_eq!((answer.place, answer.length, answer.passes), (0, 0, 0));
    answer.number
}

/// An edge row without its last zeros.
pub fn row(words: &[u32]) -> [u32; 16] {
    let mut row = [0; 16];
    row[..words.len()].copy_from_slice(words);
    row
}
