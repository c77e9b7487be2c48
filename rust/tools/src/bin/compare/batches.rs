//! What is compared of batches. That each statement is answered as alone is looked at wherever a batch is compared.

use tools::inputs::damage::{damage, mangle, word};
use tools::inputs::packages::counted;
use tools::inputs::rules::{rename, rule_fault, rule_set, RuleSet};
use tools::inputs::sentences::{noise, Grower};
use tools::inputs::tables::{built, hand_made, piled, rearranged, ROW};
use tools::inputs::Grammar;

use super::call::Call;
use super::rooms::{ample_rooms, needed_rooms, one_short, plain_rooms, Rooms};
use super::rounds::{Compared, Comparison};

/// Words of a statement's answer.
const ANSWER: usize = 4;

/// Statements of a batch, and what they are lent.
struct Batch<'a> {
    grammar: &'a Grammar,
    statements: &'a [Vec<u32>],
    /// So much that more changes nothing, and the least with which that is so.
    ample: Rooms,
    needed: Rooms,
    /// For answers and index, exactly.
    more: [usize; 2],
}

impl<'a> Batch<'a> {
    fn new(grammar: &'a Grammar, statements: &'a [Vec<u32>]) -> Batch<'a> {
        let all: Vec<(Rooms, Rooms)> = statements.iter().map(|tokens| both_rooms(grammar, tokens)).collect();
        let ample = all.iter().map(|rooms| rooms.0).fold(NOTHING, behind);
        Batch {
            grammar,
            statements,
            ample,
            needed: packed(grammar, statements, &all, ample),
            more: more_rooms(grammar, statements.len()),
        }
    }

    fn call(&self, comparison: &mut Comparison, rooms: Rooms, more: [usize; 2]) -> Call {
        Call::many(&mut comparison.random, self.grammar, &counted(self.statements), rooms, more)
    }
}

/// Words of answers and index.
fn more_rooms(grammar: &Grammar, statements: usize) -> [usize; 2] {
    let rules = plain::Rules::read(grammar.provable, grammar.logic, &grammar.rules);
    let rules = rules.map_or(0, |rules| rules.numbered().count());
    [ANSWER * statements, rules + grammar.nodes.len() + 1]
}

const NOTHING: Rooms = Rooms {
    allowance: 0,
    frames: 0,
    list: 0,
    work: 0,
};

fn both_rooms(grammar: &Grammar, tokens: &[u32]) -> (Rooms, Rooms) {
    let ample = ample_rooms(tokens);
    (ample, needed_rooms(grammar, tokens, ample))
}

/// Room for one more statement behind others: lists are added up, all else is had by each.
fn behind(before: Rooms, one: Rooms) -> Rooms {
    Rooms {
        allowance: before.allowance.max(one.allowance),
        frames: before.frames.max(one.frames),
        list: before.list + one.list,
        work: before.work.max(one.work),
    }
}

/// The least rooms of all: each list begins where those before it end.
fn packed(grammar: &Grammar, statements: &[Vec<u32>], rooms: &[(Rooms, Rooms)], ample: Rooms) -> Rooms {
    let Ok(ready) = plain::Grammar::read(grammar.provable, grammar.logic, &grammar.rules, &grammar.nodes, &grammar.edges) else {
        return ample;
    };
    let (mut all, mut used) = (NOTHING, 0);
    for (tokens, &(ample, needed)) in statements.iter().zip(rooms) {
        let list = all.list.max(used + needed.list);
        all = Rooms {
            list,
            ..behind(all, needed)
        };
        let answer = ready.parse(tokens, plain_rooms(ample));
        used += answer.list.map_or(0, |list| list.len());
    }
    all
}

impl Comparison {
    /// Statements over built, rearranged or hand-made tables, in every kind of room; then damage to words, tables and rules.
    pub fn batch_round(&mut self) -> Compared {
        if self.random.chance(10) {
            return self.piled_batch();
        }
        let size = self.random.between(0..=20);
        let mut set = rule_set(&mut self.random, size);
        if self.random.chance(50) {
            rename(&mut self.random, &mut set);
        }
        let grammar = match built(&set) {
            Some(grammar) if self.random.chance(50) => grammar,
            Some(grammar) if self.random.chance(50) => rearranged(&mut self.random, &set, &grammar),
            _ => hand_made(&mut self.random, &set),
        };
        self.batch_over(&set, &grammar)
    }

    pub fn batch_over(&mut self, set: &RuleSet, grammar: &Grammar) -> Compared {
        let statements = self.statements_of(set);
        let batch = Batch::new(grammar, &statements);
        self.in_rooms(&batch)?;
        self.word_faults(&batch)?;
        self.several_faults(set, &batch)
    }

    /// None at all, or some, one without tokens among them.
    fn statements_of(&mut self, set: &RuleSet) -> Vec<Vec<u32>> {
        let grower = Grower::new(set);
        let count = self.random.between(0..=8);
        let mut statements: Vec<Vec<u32>> = (0..count).map(|_| self.statement(set, &grower).tokens).collect();
        for _ in 0..self.random.below(3) {
            let tokens = self.random.below(2);
            let place = self.random.between(0..=statements.len());
            let short = noise(&mut self.random, set, tokens);
            statements.insert(place, short[..tokens.min(short.len())].to_vec());
        }
        statements
    }

    /// With exactly what is needed, and each room one short; with any.
    fn in_rooms(&mut self, batch: &Batch) -> Compared {
        for rooms in one_short(batch.needed, batch.ample) {
            let call = batch.call(self, rooms, batch.more);
            self.compare(call)?;
        }
        let [answers, index] = batch.more;
        let table = self.table_room(batch.grammar);
        for more in [
            [answers.saturating_sub(1), index],
            [answers, index - 1],
            [answers + 3, index + table],
        ] {
            let call = batch.call(self, batch.needed, more);
            self.compare(call)?;
        }
        for _ in 0..3 {
            let rooms = self.any_rooms(batch.needed);
            let table = self.table_room(batch.grammar);
            let call = batch.call(self, rooms, [answers, index + table]);
            self.compare(call)?;
        }
        let any = batch.more.map(|room| self.random.between(0..=room));
        let call = batch.call(self, batch.ample, any);
        self.compare(call)?;
        let call = batch.call(self, batch.ample, batch.more);
        self.compare_around(call).map(drop)
    }

    /// What an index may have beyond its size: nothing, or a word for each of some constants, up to the greatest that leaves node 0, or further.
    fn table_room(&mut self, grammar: &Grammar) -> usize {
        let constants = grammar.edges.chunks_exact(ROW).take_while(|row| row[..2] == [0, 0]);
        let symbols: Vec<usize> = constants.map(|row| row[2] as usize).collect();
        let any = if symbols.is_empty() { 0 } else { self.random.pick(&symbols) };
        let greatest = symbols.last().copied().unwrap_or(0);
        let past = self.random.between(0..=20);
        let rooms = [0, past, any, any + 1, greatest, greatest + 1, greatest + past, 65_536];
        self.random.pick(&rooms).min(66_000)
    }

    /// Counts that are too large or too small, words cut anywhere, and words that are damaged in any way.
    fn word_faults(&mut self, batch: &Batch) -> Compared {
        let words = counted(batch.statements);
        for _ in 0..8 {
            let mut statements = words.clone();
            self.word_fault(batch.statements, &mut statements);
            // there may be more of them now
            let more = [
                batch.more[0] + self.random.pick(&[0, 4, 40]),
                batch.more[1] + self.table_room(batch.grammar),
            ];
            let call = Call::many(&mut self.random, batch.grammar, &statements, batch.ample, more);
            self.compare(call)?;
        }
        Ok(())
    }

    fn word_fault(&mut self, statements: &[Vec<u32>], words: &mut Vec<u32>) {
        match self.random.weighted(&[50, 25, 25]) {
            0 if !statements.is_empty() => {
                let number = self.random.below(statements.len());
                let start = counted(&statements[..number]).len();
                let left = (words.len() - start) as u32;
                let count = words[start];
                let any = word(&mut self.random);
                let counts = [count + 1, count.wrapping_sub(1), 0, left - 1, left, left + 1, u32::MAX, any];
                words[start] = self.random.pick(&counts);
            }
            1 => words.truncate(self.random.below(words.len() + 1)),
            _ => damage(&mut self.random, words),
        }
    }

    /// Any of the refusals, often more than one, so that their order shows.
    fn several_faults(&mut self, set: &RuleSet, batch: &Batch) -> Compared {
        for _ in 0..6 {
            let (mut set, mut grammar) = (set.clone(), batch.grammar.clone());
            let mut words = counted(batch.statements);
            let mut more = batch.more;
            if self.random.chance(60) && !grammar.nodes.is_empty() {
                self.table_fault(&set, &mut grammar);
            }
            if self.random.chance(30) {
                rule_fault(&mut self.random, &mut set);
                grammar.rules = set.words();
            }
            if self.random.chance(50) {
                self.word_fault(batch.statements, &mut words);
            }
            for room in &mut more {
                *room -= self.random.pick(&[0, 0, 1, *room]).min(*room);
            }
            let call = Call::many(&mut self.random, &grammar, &words, batch.ample, more);
            self.compare(call)?;
        }
        Ok(())
    }

    /// Tables whose edges have many reduces.
    fn piled_batch(&mut self) -> Compared {
        let (grammar, tokens) = piled(&mut self.random);
        let count = self.random.between(1..=4);
        let mut statements = vec![tokens; count];
        for tokens in &mut statements {
            if self.random.chance(50) {
                mangle(&mut self.random, tokens, &[10, 12, 20, 21, 22]);
            }
        }
        let batch = Batch::new(&grammar, &statements);
        self.in_rooms(&batch)?;
        self.word_faults(&batch)
    }

    /// The statement between short ones. It may be the longest, or longer.
    pub fn long_batch(&mut self, grammar: &Grammar, tokens: &[u32]) -> Compared {
        let short = tokens[..self.random.between(0..=3)].to_vec();
        let statements = [short.clone(), tokens.to_vec(), short];
        let ample = statements.iter().map(|tokens| ample_rooms(tokens)).fold(NOTHING, behind);
        let more = more_rooms(grammar, statements.len());
        let call = Call::many(&mut self.random, grammar, &counted(&statements), ample, more);
        self.compare_around(call).map(drop)
    }
}
