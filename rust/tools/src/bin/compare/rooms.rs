//! The rooms that a call takes, learned from the side that can be asked quickly.

use tools::inputs::rules::RuleSet;
use tools::inputs::Grammar;

/// Rooms that a parse is lent.
#[derive(Clone, Copy, Debug)]
pub struct Rooms {
    pub allowance: u32,
    pub frames: usize,
    pub list: usize,
    pub work: usize,
}

/// Four passes for each token, and six list entries in each.
pub fn ample_rooms(tokens: &[u32]) -> Rooms {
    Rooms {
        allowance: 4 * tokens.len() as u32,
        frames: tokens.len(),
        list: 24 * tokens.len(),
        work: 24 * tokens.len() + 1,
    }
}

pub fn plain_rooms(rooms: Rooms) -> plain::Rooms {
    plain::Rooms {
        allowance: rooms.allowance,
        frames: rooms.frames,
        list: rooms.list.min(rooms.work),
    }
}

/// The least rooms with which the parse answers as with ample ones.
pub fn needed_rooms(grammar: &Grammar, tokens: &[u32], ample: Rooms) -> Rooms {
    let Ok(ready) = plain::Grammar::read(grammar.provable, grammar.logic, &grammar.rules, &grammar.nodes, &grammar.edges) else {
        return ample;
    };
    let answer = ready.parse(tokens, plain_rooms(ample));
    let frames = |frames| ready.parse(tokens, plain_rooms(Rooms { frames, ..ample })) == answer;
    let list = |list| ready.parse(tokens, plain_rooms(Rooms { list, ..ample })) == answer;
    let entries = least(ample.list, list);
    Rooms {
        allowance: answer.passes,
        frames: least(ample.frames, frames),
        list: entries,
        work: entries,
    }
}

/// The least rooms, in frames and rows, with which a build answers as with ample ones.
pub fn needed_build(set: &RuleSet, commands: &[u32], ample: plain::Room) -> plain::Room {
    let Some(rules) = plain::Rules::read(set.provable, set.logic, &set.words()) else {
        return ample;
    };
    let refusal = |room| plain::grow(&rules, commands, room).err();
    let answer = refusal(ample);
    plain::Room {
        frames: least(ample.frames, |frames| refusal(plain::Room { frames, ..ample }) == answer),
        nodes: least(ample.nodes, |nodes| refusal(plain::Room { nodes, ..ample }) == answer),
        edges: least(ample.edges, |edges| refusal(plain::Room { edges, ..ample }) == answer),
    }
}

/// The least number that is enough, found by halving; `most` is.
fn least(most: usize, enough: impl Fn(usize) -> bool) -> usize {
    let (mut short, mut most) = (0, most);
    while short < most {
        let middle = (short + most) / 2;
        if enough(middle) {
            most = middle;
        } else {
            short = middle + 1;
        }
    }
    most
}

/// Exactly what is needed, and with one room after the other less by one, the others ample.
pub fn one_short(needed: Rooms, ample: Rooms) -> [Rooms; 5] {
    let allowance = needed.allowance.saturating_sub(1);
    let [frames, list, work] = [needed.frames, needed.list, needed.work].map(|room| room.saturating_sub(1));
    [
        needed,
        Rooms { allowance, ..ample },
        Rooms { frames, ..ample },
        Rooms { list, ..ample },
        Rooms { work, ..ample },
    ]
}
