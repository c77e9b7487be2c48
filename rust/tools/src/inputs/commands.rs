//! Commands for a build: garden paths that lead somewhere, others, and damage to their words.

use super::damage::word;
use crate::random::Random;

/// An item of a body as it is written: its kind and its symbol.
pub type Pair = [u32; 2];

#[derive(Clone, Debug, PartialEq, Eq)]
pub enum Command {
    Path { prefix: Vec<Pair>, shadow: Vec<Pair> },
    Conversions,
}

impl Command {
    pub fn words(&self) -> Vec<u32> {
        match self {
            Command::Path { prefix, shadow } => {
                let head = vec![1, prefix.len() as u32, shadow.len() as u32];
                [head, prefix.concat(), shadow.concat()].concat()
            }
            Command::Conversions => vec![2],
        }
    }
}

pub fn words(commands: &[Command]) -> Vec<u32> {
    commands.iter().flat_map(Command::words).collect()
}

/// What paths are made of: the bodies that are placed in the tree, and the conversions, each from a typecode to another.
#[derive(Clone, Debug, Default)]
pub struct Ground {
    pub bodies: Vec<Vec<Pair>>,
    pub conversions: Vec<[u32; 2]>,
}

fn is_slot(pair: &Pair) -> bool {
    pair[0] == 1
}

impl Ground {
    fn body(&self, random: &mut Random) -> &[Pair] {
        &self.bodies[random.below(self.bodies.len())]
    }

    /// One that is as wanted, if some is.
    fn body_with(&self, random: &mut Random, wanted: impl Fn(&[Pair]) -> bool) -> &[Pair] {
        let found: Vec<&Vec<Pair>> = self.bodies.iter().filter(|body| wanted(body)).collect();
        match found.len() {
            0 => self.body(random),
            count => found[random.below(count)],
        }
    }

    fn item(&self, random: &mut Random) -> Pair {
        let body = self.body(random);
        body[random.below(body.len())]
    }

    /// One to three commands, and bodies that some of them want to find among the rules.
    pub fn commands(&self, random: &mut Random) -> (Vec<Command>, Vec<Vec<Pair>>) {
        let (mut commands, mut wanted) = (Vec::new(), Vec::new());
        for _ in 0..=random.weighted(&[50, 30, 20]) {
            match random.weighted(&[75, 17, 4, 4]) {
                0 => {
                    let (path, body) = self.path(random);
                    commands.push(path);
                    wanted.extend(random.chance(90).then_some(body));
                }
                1 => commands.push(Command::Conversions),
                2 => commands.push(self.any_path(random)),
                _ => commands.extend(commands.last().cloned()),
            }
        }
        (commands, wanted)
    }

    /// A path, and a body through which it leads. The prefix goes where a slot of some body is, and there begins another body, at times with
    /// slots that are converted to that body's.
    fn path(&self, random: &mut Random) -> (Command, Vec<Pair>) {
        // Mostly a constant before the slot and something more behind it, so that there are two places and something to copy.
        let more = random.chance(90) as usize;
        let shadows = |body: &[Pair]| !is_slot(&body[0]) && body[..body.len() - more].iter().any(is_slot);
        let mut shadow = self.body_with(random, shadows).to_vec();
        let slot = shadow.iter().position(is_slot).unwrap_or(0);
        shadow.truncate(slot + 1);
        let mut rest = self.body_with(random, |body| body[0] != shadow[slot]).to_vec();
        let whole = random.chance(30);
        rest.truncate(if whole { rest.len() } else { random.between(1..=rest.len()) });
        rest.iter_mut().for_each(|item| self.convert(random, item));
        let prefix = [&shadow[..slot], &rest].concat();
        let more: Vec<Pair> = (0..random.between(more..=2)).map(|_| self.item(random)).collect();
        let body = [&prefix[..], &more].concat();
        (Command::Path { prefix, shadow }, body)
    }

    fn convert(&self, random: &mut Random, item: &mut Pair) {
        let from: Vec<u32> = self
            .conversions
            .iter()
            .filter(|ends| ends[1] == item[1])
            .map(|ends| ends[0])
            .collect();
        if is_slot(item) && !from.is_empty() && random.chance(30) {
            item[1] = random.pick(&from);
        }
    }

    fn any_path(&self, random: &mut Random) -> Command {
        let mut items = |most: usize| (0..random.between(0..=most)).map(|_| self.item(random)).collect::<Vec<Pair>>();
        let (common, prefix, shadow) = (items(2), items(2), items(2));
        Command::Path {
            prefix: [common.clone(), prefix].concat(),
            shadow: [common, shadow].concat(),
        }
    }

    /// A small change of some commands: one dropped, doubled, swapped, or with another item.
    pub fn edit(&self, random: &mut Random, commands: &mut Vec<Command>) {
        if commands.is_empty() {
            return commands.push(self.any_path(random));
        }
        let (place, other) = (random.below(commands.len()), random.below(commands.len()));
        let item = self.item(random);
        match random.below(6) {
            0 => drop(commands.remove(place)),
            1 => commands.insert(other, commands[place].clone()),
            2 => commands.swap(place, other),
            3 => commands.insert(place, Command::Conversions),
            _ => edit_path(random, &mut commands[place], item),
        }
    }
}

fn edit_path(random: &mut Random, command: &mut Command, item: Pair) {
    let Command::Path { prefix, shadow } = command else { return };
    let list = if random.chance(50) { prefix } else { shadow };
    match list.len() {
        0 => list.push(item),
        length => match random.below(3) {
            0 => list[random.below(length)] = item,
            1 => list.truncate(length - 1),
            _ => list.push(item),
        },
    }
}

/// Words of commands with one number at an end of its range, or just past it.
pub fn fault(random: &mut Random, commands: &[Command]) -> Vec<u32> {
    let mut words = words(commands);
    if words.is_empty() {
        return vec![word(random)];
    }
    let place = random.below(words.len());
    let counts = [0, 1, words[place].wrapping_sub(1), words[place].wrapping_add(1), 1 << 31, u32::MAX];
    words[place] = match random.below(3) {
        0 => random.pick(&counts),
        1 => random.pick(&[0, 1, 2, 3, 65_535, 65_536]),
        _ => word(random),
    };
    words
}
