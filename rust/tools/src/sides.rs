//! What can be held against the published Rust: the library, and the papers in ordinary Rust.

use jiehkavon::words::{self, Answer, Built};

/// Provable, logic, rules, commands, then the nodes, edges and frames that are lent.
type Build = fn(u32, u32, &[u32], &[u32], &mut [u32], &mut [u32], &mut [u32]) -> Built;
/// Provable, logic, rules, nodes, edges, tokens, allowance, then the frames, list and work that are lent.
type Parse = fn(u32, u32, &[u32], &[u32], &[u32], &[u32], u32, &mut [u32], &mut [u32], &mut [u32]) -> Answer;
/// Provable, logic, rules, tokens, list, then the work that is lent.
type Verify = fn(u32, u32, &[u32], &[u32], &[u32], &mut [u32]) -> Answer;

pub struct Side {
    pub name: &'static str,
    pub build: Build,
    pub parse: Parse,
    pub verify: Verify,
}

pub const LIBRARY: Side = Side {
    name: "library",
    build: words::build,
    parse: words::parse,
    verify: words::verify,
};

pub const PLAIN: Side = Side {
    name: "plain",
    build: |provable, logic, rules, commands, nodes, edges, frames| {
        let plain::Built { number, nodes, edges } = plain::build(provable, logic, rules, commands, nodes, edges, frames);
        Built { number, nodes, edges }
    },
    parse: |provable, logic, rules, nodes, edges, tokens, allowance, frames, list, work| {
        answer(plain::parse(
            provable, logic, rules, nodes, edges, tokens, allowance, frames, list, work,
        ))
    },
    verify: |provable, logic, rules, tokens, list, work| answer(plain::verify(provable, logic, rules, tokens, list, work)),
};

fn answer(answer: plain::Answer) -> Answer {
    let plain::Answer {
        number,
        place,
        length,
        passes,
    } = answer;
    Answer {
        number,
        place,
        length,
        passes,
    }
}

/// The side with this name.
pub fn named(name: &str) -> Option<&'static Side> {
    [&LIBRARY, &PLAIN].into_iter().find(|side| side.name == name)
}
