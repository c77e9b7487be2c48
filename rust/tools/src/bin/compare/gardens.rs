//! What is compared of builds with commands.

use plain::Room;
use tools::inputs::commands::{fault, words};
use tools::inputs::damage::{self, damage};
use tools::inputs::gardens::{garden, samples, Garden};
use tools::inputs::tables::{with_tables, ROW};
use tools::inputs::Grammar;

use super::call::Call;
use super::rounds::{Compared, Comparison};

/// Enough for nearly all trees; one that passes it is built in all the room that there may be.
const SMALL: Room = Room {
    nodes: 300,
    edges: 1_500,
    frames: 60,
};
const LARGE: Room = Room {
    nodes: 8_192,
    edges: 16_384,
    frames: 16_385,
};

impl Comparison {
    /// Rules with commands, and their statements; commands damaged, and words that are none.
    pub fn garden_round(&mut self) -> Compared {
        if self.random.chance(25) {
            return self.deep_round();
        }
        let garden = garden(&mut self.random);
        let commands = words(&garden.commands);
        self.builds_with(&garden.set, &commands, SMALL)?;
        self.command_faults(&garden)?;
        let grammar = with_tables(&garden.set, Vec::new(), Vec::new());
        let call = build_in(self, &grammar, &commands, SMALL);
        let built = self.compare(call)?;
        match built.fields[0] {
            0 => {
                let (nodes, edges) = (built.fields[1] as usize, ROW * built.fields[2] as usize);
                let grammar = with_tables(&garden.set, built.slice(2)[..nodes].to_vec(), built.slice(3)[..edges].to_vec());
                self.statements(&garden.set, &grammar, 3)?;
                match self.random.chance(20) {
                    true => self.batch_over(&garden.set, &grammar),
                    false => Ok(()),
                }
            }
            6 | 12 | 13 => {
                let call = build_in(self, &grammar, &commands, LARGE);
                self.compare(call).map(drop)
            }
            _ => Ok(()),
        }
    }

    /// One sample after the other, so that none is left to chance, in all the room that there may be: some have copies as deep as can be.
    /// Seldom with each room one short, which takes its time.
    fn deep_round(&mut self) -> Compared {
        let samples = samples();
        self.deep_rounds += 1;
        let garden = &samples[self.deep_rounds % samples.len()];
        let commands = words(&garden.commands);
        if self.random.chance(5) {
            return self.builds_with(&garden.set, &commands, LARGE);
        }
        let grammar = with_tables(&garden.set, Vec::new(), Vec::new());
        let call = build_in(self, &grammar, &commands, LARGE);
        self.compare(call).map(drop)
    }

    fn command_faults(&mut self, garden: &Garden) -> Compared {
        let grammar = with_tables(&garden.set, Vec::new(), Vec::new());
        for _ in 0..3 {
            let mut damaged = words(&garden.commands);
            damage(&mut self.random, &mut damaged);
            let wild = damage::words(&mut self.random, 20);
            for commands in [fault(&mut self.random, &garden.commands), damaged, wild] {
                let call = build_in(self, &grammar, &commands, SMALL);
                self.compare(call)?;
            }
        }
        Ok(())
    }
}

fn build_in(comparison: &mut Comparison, grammar: &Grammar, commands: &[u32], room: Room) -> Call {
    let rooms = [room.nodes, ROW * room.edges, ROW * room.frames];
    Call::build_with(&mut comparison.random, grammar, commands, rooms)
}
