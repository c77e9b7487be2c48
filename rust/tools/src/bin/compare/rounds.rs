//! What is compared, round by round.

use plain::{Room, TOKEN_LIMIT};
use tools::inputs::damage::{damage, disorder, field, mangle, word, words};
use tools::inputs::rules::{rename, rule_fault, rule_set, RuleSet};
use tools::inputs::samples::edited_sample;
use tools::inputs::sentences::{guided, noise, Grower, Sentence};
use tools::inputs::tables::{ample_room, built, hand_made, piled, rearranged, with_tables, ROW};
use tools::inputs::{limits, Grammar};
use tools::random::Random;

use super::call::{Both, Call, Entry, Outcome};
use super::counts::Counts;
use super::rooms::{ample_rooms, needed_build, needed_rooms, one_short, plain_rooms, Rooms};

/// The call on which the two sides disagree.
pub type Disagreement = Box<Call>;
pub type Compared = Result<(), Disagreement>;

pub struct Comparison {
    pub random: Random,
    pub counts: Counts,
    limit_rounds: usize,
    pub deep_rounds: usize,
}

impl Comparison {
    pub fn new(seed: u64) -> Comparison {
        Comparison {
            random: Random::new(seed),
            counts: Counts::default(),
            limit_rounds: 0,
            deep_rounds: 0,
        }
    }

    pub fn round(&mut self) -> Compared {
        match self.random.weighted(&[700, 150, 60, 40, 20, 30, 300, 200, 5]) {
            0 => self.grammar_round(),
            1 => self.hand_made_round(),
            2 => self.arbitrary_round(),
            3 => self.piled_round(),
            4 => self.many_tokens_round(),
            5 => self.package_round(),
            6 => self.garden_round(),
            7 => self.batch_round(),
            _ => self.limit_round(),
        }
    }

    pub fn compare(&mut self, call: Call) -> Result<Outcome, Disagreement> {
        let both = Both::of(&call);
        if !both.agree(&call) {
            return Err(Box::new(call));
        }
        self.counts.add(call.entry, &both.library);
        Ok(both.library)
    }

    /// The call, and others like it: one slice cut short, words damaged, other typecodes.
    pub fn compare_around(&mut self, call: Call) -> Result<Outcome, Disagreement> {
        let cut = self.cut(&call);
        self.compare(cut)?;
        let damaged = self.damaged(&call);
        self.compare(damaged)?;
        self.compare(call)
    }

    fn cut(&mut self, call: &Call) -> Call {
        let mut call = call.clone();
        let place = self.random.below(call.slices.len());
        let length = call.slices[place].len();
        let shorter = [0, length / 2, length.saturating_sub(1), self.random.below(length + 1)];
        call.slices[place].truncate(self.random.pick(&shorter));
        call
    }

    fn damaged(&mut self, call: &Call) -> Call {
        let mut call = call.clone();
        if !call.numbers.is_empty() && self.random.chance(15) {
            let place = self.random.below(call.numbers.len());
            let other = self.random.pick(&call.numbers);
            call.numbers[place] = self.random.pick(&[0, 65_535, 65_536, u32::MAX, other]);
        } else {
            let place = self.random.below(call.slices.len());
            damage(&mut self.random, &mut call.slices[place]);
            call.cut_bytes();
        }
        call
    }

    /// A rule set, its tree, its statements, and damage to all of them.
    fn grammar_round(&mut self) -> Compared {
        let most = if self.random.chance(75) { 14 } else { 50 };
        let size = self.random.between(0..=most);
        let mut set = match self.random.chance(15) {
            true => edited_sample(&mut self.random),
            false => rule_set(&mut self.random, size),
        };
        if self.random.chance(50) {
            rename(&mut self.random, &mut set);
        }
        self.bodies(&set)?;
        self.builds(&set)?;
        self.rule_faults(&set)?;
        let Some(grammar) = built(&set) else { return Ok(()) };
        self.statements(&set, &grammar, 3)?;
        self.faults(&set, &grammar)?;
        let other = rearranged(&mut self.random, &set, &grammar);
        self.statements(&set, &other, 2)?;
        self.faults(&set, &other)?;
        self.guided_statement(&set, &other)
    }

    /// One number of a table at the end of its range, or past it, or rows that don't rise.
    pub fn table_fault(&mut self, set: &RuleSet, grammar: &mut Grammar) {
        let (rules, nodes) = (set.rules.len() as u32, grammar.nodes.len() as u32);
        match self.random.weighted(&[20, 50, 30]) {
            0 => {
                let node = self.random.pick(&[0, grammar.nodes.len() - 1]);
                grammar.nodes[node] = self.random.pick(&[0, 1, rules, rules + 1]);
            }
            1 => field(&mut self.random, rules, nodes, &mut grammar.edges),
            _ => disorder(&mut self.random, &mut grammar.edges),
        }
    }

    fn faults(&mut self, set: &RuleSet, grammar: &Grammar) -> Compared {
        for _ in 0..3 {
            let mut grammar = grammar.clone();
            self.table_fault(set, &mut grammar);
            let tokens = noise(&mut self.random, set, 2);
            let call = Call::parse(&mut self.random, &grammar, &tokens, ample_rooms(&tokens));
            self.compare(call)?;
        }
        Ok(())
    }

    fn rule_faults(&mut self, set: &RuleSet) -> Compared {
        for _ in 0..3 {
            let mut set = set.clone();
            rule_fault(&mut self.random, &mut set);
            let grammar = with_tables(&set, Vec::new(), Vec::new());
            let (nodes, edges) = ample_room(&set);
            let call = Call::build(&mut self.random, &grammar, nodes, ROW * edges);
            self.compare(call)?;
            let rule = self.random.between(0..=set.rules.len()) as u32;
            self.compare(Call::body(&grammar, rule))?;
        }
        Ok(())
    }

    fn bodies(&mut self, set: &RuleSet) -> Compared {
        let grammar = with_tables(set, Vec::new(), Vec::new());
        let count = set.rules.len();
        for rule in [self.random.below(count + 1), count, count + 1] {
            self.compare_around(Call::body(&grammar, rule as u32))?;
        }
        let any = word(&mut self.random);
        self.compare(Call::body(&grammar, any)).map(drop)
    }

    /// With ample room; then with exactly what that took, and less by one word, of either table; then with any.
    fn builds(&mut self, set: &RuleSet) -> Compared {
        let (nodes, edges) = ample_room(set);
        let ample = Room { nodes, edges, frames: 0 };
        self.builds_with(set, &[], ample)
    }

    /// With commands, and with frames one short as well.
    pub fn builds_with(&mut self, set: &RuleSet, commands: &[u32], ample: Room) -> Compared {
        let grammar = with_tables(set, Vec::new(), Vec::new());
        let odd = self.random.below(ROW);
        let rooms = [ample.nodes, ROW * ample.edges + odd, ROW * ample.frames + odd];
        let call = Call::build_with(&mut self.random, &grammar, commands, rooms);
        self.compare_around(call)?;
        let needed = needed_build(set, commands, ample);
        let exact = [needed.nodes, ROW * needed.edges, ROW * needed.frames];
        let any = exact.map(|room| self.random.between(0..=room));
        let one_short = |short: usize| {
            let mut rooms = exact;
            rooms[short] = rooms[short].saturating_sub(1);
            rooms
        };
        for rooms in [exact, one_short(0), one_short(1), one_short(2), any] {
            let call = Call::build_with(&mut self.random, &grammar, commands, rooms);
            self.compare(call)?;
        }
        Ok(())
    }

    pub fn statements(&mut self, set: &RuleSet, grammar: &Grammar, count: usize) -> Compared {
        let grower = Grower::new(set);
        for _ in 0..count {
            let sentence = self.statement(set, &grower);
            let parsed = self.parses(grammar, &sentence.tokens)?;
            let list = if parsed.fields[0] == 0 { parsed.list() } else { sentence.list };
            self.verifies(set, grammar, &sentence.tokens, &list)?;
        }
        Ok(())
    }

    /// A grown statement as it is or damaged, or noise.
    pub fn statement(&mut self, set: &RuleSet, grower: &Grower) -> Sentence {
        let size = self.random.between(1..=25);
        let typecode = if self.random.chance(75) {
            set.logic
        } else {
            self.random.pick(&set.typecodes())
        };
        let tokens = noise(&mut self.random, set, size);
        let noise = Sentence { tokens, list: vec![1] };
        let mut sentence = grower.sentence(&mut self.random, typecode, size).unwrap_or(noise.clone());
        match self.random.weighted(&[60, 30, 10]) {
            0 => sentence,
            1 => {
                mangle(&mut self.random, &mut sentence.tokens, &set.constants());
                sentence
            }
            _ => noise,
        }
    }

    /// With ample rooms; then with exactly what that took, and each room one short; then with any.
    fn parses(&mut self, grammar: &Grammar, tokens: &[u32]) -> Result<Outcome, Disagreement> {
        let ample = ample_rooms(tokens);
        let needed = needed_rooms(grammar, tokens, ample);
        for rooms in one_short(needed, ample) {
            let call = Call::parse(&mut self.random, grammar, tokens, rooms);
            self.compare(call)?;
        }
        let any = self.any_rooms(needed);
        let call = Call::parse(&mut self.random, grammar, tokens, any);
        self.compare(call)?;
        let call = Call::parse(&mut self.random, grammar, tokens, ample);
        self.compare_around(call)
    }

    pub fn any_rooms(&mut self, most: Rooms) -> Rooms {
        Rooms {
            allowance: self.random.between(0..=most.allowance as usize) as u32,
            frames: self.random.between(0..=most.frames),
            list: self.random.between(0..=most.list),
            work: self.random.between(0..=most.work),
        }
    }

    /// The list as it is, with less room, damaged, and one at random.
    fn verifies(&mut self, set: &RuleSet, grammar: &Grammar, tokens: &[u32], list: &[u32]) -> Compared {
        let rules: Vec<u32> = (0..=set.rules.len() as u32 + 1).collect();
        let mut mangled = list.to_vec();
        mangle(&mut self.random, &mut mangled, &rules);
        let any: Vec<u32> = (0..self.random.below(list.len() + 2)).map(|_| self.random.pick(&rules)).collect();
        for list in [&mangled, &any] {
            let call = Call::verify(&mut self.random, grammar, tokens, list, list.len());
            self.compare(call)?;
        }
        for work in [list.len().saturating_sub(1), list.len() + 3] {
            let call = Call::verify(&mut self.random, grammar, tokens, list, work);
            self.compare(call)?;
        }
        let call = Call::verify(&mut self.random, grammar, tokens, list, list.len());
        self.compare_around(call).map(drop)
    }

    /// Tables that nobody built.
    fn hand_made_round(&mut self) -> Compared {
        let size = self.random.between(0..=12);
        let set = rule_set(&mut self.random, size);
        let grammar = hand_made(&mut self.random, &set);
        self.statements(&set, &grammar, 1)?;
        self.guided_statement(&set, &grammar)?;
        self.guided_statement(&set, &grammar)
    }

    fn guided_statement(&mut self, set: &RuleSet, grammar: &Grammar) -> Compared {
        let Ok(ready) = plain::Grammar::read(grammar.provable, grammar.logic, &grammar.rules, &grammar.nodes, &grammar.edges) else {
            return Ok(());
        };
        let answer = |tokens: &[u32]| match ready.parse(tokens, plain_rooms(ample_rooms(tokens))).list {
            Ok(_) => (0, 0),
            Err(refusal) => (refusal.number(), refusal.place() as u32),
        };
        let first = if self.random.chance(70) {
            set.provable
        } else {
            self.random.pick(&set.typecodes())
        };
        let most = self.random.between(2..=40);
        let tokens = guided(&mut self.random, first, &set.constants(), most, answer);
        self.parses(grammar, &tokens).map(drop)
    }

    /// Any words in every slice.
    fn arbitrary_round(&mut self) -> Compared {
        for (entry, numbers, slices) in [
            (Entry::Body, 3, 1),
            (Entry::Build, 2, 5),
            (Entry::Parse, 3, 7),
            (Entry::Many, 3, 9),
            (Entry::Verify, 2, 4),
            (Entry::Read, 0, 3),
            (Entry::Write, 2, 3),
        ] {
            let mut numbers: Vec<u32> = (0..numbers).map(|_| word(&mut self.random)).collect();
            if numbers.len() >= 2 && self.random.chance(70) {
                numbers[..2].copy_from_slice(&[1, 2]);
            }
            let slices = (0..slices).map(|_| words(&mut self.random, 40)).collect();
            let mut call = Call { entry, numbers, slices };
            call.cut_bytes();
            self.compare(call)?;
        }
        Ok(())
    }

    fn piled_round(&mut self) -> Compared {
        let (grammar, mut tokens) = piled(&mut self.random);
        if self.random.chance(30) {
            mangle(&mut self.random, &mut tokens, &[10, 12, 20, 21, 22]);
        }
        let parsed = self.parses(&grammar, &tokens)?;
        let list = parsed.list();
        let call = Call::verify(&mut self.random, &grammar, &tokens, &list, list.len());
        self.compare_around(call).map(drop)
    }

    /// The most tokens, and one more, over small tables.
    fn many_tokens_round(&mut self) -> Compared {
        let count = self.random.pick(&[TOKEN_LIMIT, TOKEN_LIMIT + 1, 40_000]);
        let (set, statements) = limits::many_tokens(count);
        let grammar = built(&set).expect("the set builds");
        let tokens = &statements[self.random.below(statements.len())];
        let rooms = ample_rooms(tokens);
        let call = Call::parse(&mut self.random, &grammar, tokens, rooms);
        let parsed = self.compare_around(call)?;
        let list = parsed.list();
        let call = Call::verify(&mut self.random, &grammar, tokens, &list, list.len());
        self.compare_around(call)?;
        self.long_batch(&grammar, tokens)
    }

    /// One limit after the other, so that none is left to chance.
    fn limit_round(&mut self) -> Compared {
        self.limit_rounds += 1;
        match self.limit_rounds % 7 {
            0 => self.most_tokens(),
            1 => self.long_list(),
            limit => (0..=1).try_for_each(|past| self.at_limit(limit, past)),
        }
    }

    /// Exactly at the limit, or `past` beyond it.
    fn at_limit(&mut self, limit: usize, past: usize) -> Compared {
        match limit {
            2 => self.big_build(&limits::many_rules(2_048 + past as u32)),
            3 => self.big_build(&limits::tree_of_nodes(8_192 + past as u32)),
            4 => self.big_build(&limits::tree_of_edges(1 + past as u32)),
            5 => self.big_tables(&limits::many_nodes(8_192 + past)),
            _ => self.big_tables(&limits::many_edges(16_384 + past)),
        }
    }

    /// The rooms of the longest statements, each one short.
    fn most_tokens(&mut self) -> Compared {
        let (set, statements) = limits::many_tokens(TOKEN_LIMIT);
        let grammar = built(&set).expect("the set builds");
        let tokens = &statements[self.random.below(2)];
        self.parses(&grammar, tokens).map(drop)
    }

    fn big_build(&mut self, set: &RuleSet) -> Compared {
        let grammar = with_tables(set, Vec::new(), Vec::new());
        let call = Call::build(&mut self.random, &grammar, 8_200, ROW * 16_400);
        self.compare(call)?;
        for rule in [set.rules.len(), set.rules.len() + 1] {
            self.compare(Call::body(&grammar, rule as u32))?;
        }
        Ok(())
    }

    fn big_tables(&mut self, grammar: &Grammar) -> Compared {
        for tokens in limits::ACCEPTED {
            let call = Call::parse(&mut self.random, grammar, tokens, ample_rooms(tokens));
            self.compare_around(call)?;
        }
        Ok(())
    }

    fn long_list(&mut self) -> Compared {
        let rounds = self.random.between(10_000..=40_000);
        let (set, tokens, list) = limits::long_list(rounds);
        let grammar = with_tables(&set, Vec::new(), Vec::new());
        let call = Call::verify(&mut self.random, &grammar, &tokens, &list, list.len());
        self.compare_around(call).map(drop)
    }
}
