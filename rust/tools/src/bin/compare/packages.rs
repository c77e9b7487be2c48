//! What is compared of packages.

use tools::inputs::damage::damage;
use tools::inputs::packages::{
    any_bytes, any_records, bytes, change_byte, counted, mixed_records, rearrange, records, with_item_fault, with_length_fault, Record,
};
use tools::inputs::rules::{rename, rule_fault, rule_set, RuleSet};
use tools::inputs::sentences::Grower;
use tools::inputs::tables::with_tables;

use super::call::Call;
use super::rounds::{Compared, Comparison};

/// Packages no longer than this are cut at every byte, and changed in every byte.
const SHORT: usize = 400;

impl Comparison {
    /// A package, read and written; cuts of it, changes of its bytes and records, and bytes that are none.
    pub fn package_round(&mut self) -> Compared {
        let size = self.random.between(0..=6);
        let mut set = rule_set(&mut self.random, size);
        if self.random.chance(50) {
            rename(&mut self.random, &mut set);
        }
        if self.random.chance(10) {
            rule_fault(&mut self.random, &mut set);
        }
        let statements = self.some_statements(&set);
        let records = match self.random.chance(50) {
            true => records(&set, &statements),
            false => mixed_records(&mut self.random, &set, &statements),
        };
        self.reads(&records)?;
        self.writes(&set, &statements)?;
        self.record_faults(&records)?;
        for _ in 0..10 {
            let package = any_bytes(&mut self.random);
            self.read(&package)?;
            let package = any_records(&mut self.random);
            self.read(&package)?;
        }
        Ok(())
    }

    /// A statement of no tokens among them.
    fn some_statements(&mut self, set: &RuleSet) -> Vec<Vec<u32>> {
        let grower = Grower::new(set);
        let count = self.random.between(0..=3);
        let mut statements: Vec<Vec<u32>> = (0..count).map(|_| self.statement(set, &grower).tokens).collect();
        if self.random.chance(20) {
            statements.push(Vec::new());
        }
        statements
    }

    /// With room for whatever the bytes may say.
    fn read(&mut self, package: &[u8]) -> Compared {
        let words = package.len() / 2;
        let call = Call::read(&mut self.random, package, words, words);
        self.compare(call).map(drop)
    }

    /// With exactly the room that is needed, and less by one word of either slice; with the package cut and changed.
    fn reads(&mut self, records: &[Record]) -> Compared {
        let package = bytes(records);
        let words = || records.iter().map(Record::words);
        let (rules, statements) = (
            words().map(|words| words.0).sum::<usize>(),
            words().map(|words| words.1).sum::<usize>(),
        );
        let short = (rules.saturating_sub(1), statements.saturating_sub(1));
        let any = (self.random.between(0..=rules), self.random.between(0..=statements));
        for (rules, statements) in [(rules, statements), (short.0, statements), (rules, short.1), short, any] {
            let call = Call::read(&mut self.random, &package, rules, statements);
            self.compare(call)?;
        }
        let call = Call::read(&mut self.random, &package, rules + 3, statements + 3);
        self.compare_around(call)?;
        let places: Vec<usize> = match package.len() {
            0..=SHORT => (0..package.len()).collect(),
            length => (0..SHORT).map(|_| self.random.below(length)).collect(),
        };
        for place in places {
            self.read(&package[..place])?;
            let mut changed = package.clone();
            change_byte(&mut self.random, &mut changed, place);
            self.read(&changed)?;
        }
        let more = [package, any_bytes(&mut self.random)].concat();
        self.read(&more)
    }

    fn record_faults(&mut self, records: &[Record]) -> Compared {
        for _ in 0..20 {
            let mut others = records.to_vec();
            for _ in 0..self.random.between(1..=2) {
                rearrange(&mut self.random, &mut others);
            }
            self.read(&bytes(&others))?;
            let package = with_length_fault(&mut self.random, records);
            self.read(&package)?;
            if let Some(package) = with_item_fault(&mut self.random, records) {
                self.read(&package)?;
            }
        }
        Ok(())
    }

    /// With exactly the room that is needed, one byte less, and any; with words of statements that are not whole, or too long.
    fn writes(&mut self, set: &RuleSet, statements: &[Vec<u32>]) -> Compared {
        let grammar = with_tables(set, Vec::new(), Vec::new());
        let needed = bytes(&records(set, statements)).len();
        let statements = counted(statements);
        let any = self.random.between(0..=needed);
        for room in [needed, needed - 1, any, needed + 5] {
            let call = Call::write(&mut self.random, &grammar, &statements, room);
            self.compare_around(call)?;
        }
        for _ in 0..10 {
            let mut damaged = statements.clone();
            damage(&mut self.random, &mut damaged);
            let room = self.random.pick(&[0, needed, 2 * needed]);
            let call = Call::write(&mut self.random, &grammar, &damaged, room);
            self.compare(call)?;
        }
        Ok(())
    }
}
