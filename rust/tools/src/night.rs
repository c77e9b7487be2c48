//! What a nightly run takes: a database's rules, the tables that the library builds of them and of its commands, and the first so many of its
//! statements as counted words. It can be kept in files and read back.

use crate::metamath::Database;
use crate::ordinary::{Buffers, Tables};
use crate::tables;
use jiehkavon::limits::{ANSWER_WIDTH, ITEM_WIDTH, ROW_WIDTH};
use jiehkavon::words::{parse_many, Batch};
use jiehkavon::Room;
use std::io;
use std::path::Path;

/// Rules, tables and statements as an entry point over many statements takes them.
#[derive(Clone, Debug, Default)]
pub struct Night {
    pub provable: u32,
    pub logic: u32,
    pub rules: Vec<u32>,
    pub commands: Vec<u32>,
    pub nodes: Vec<u32>,
    pub edges: Vec<u32>,
    /// For each statement its number of tokens, then its tokens.
    pub statements: Vec<u32>,
}

impl Night {
    /// The tables of these rules and commands, without statements; nothing if they don't build.
    pub fn try_new(provable: u32, logic: u32, rules: Vec<u32>, commands: Vec<u32>) -> Option<Night> {
        let (built, nodes, edges) = tables::built(provable, logic, &rules, &commands);
        (built.number == 0).then_some(Night {
            provable,
            logic,
            rules,
            commands,
            nodes,
            edges,
            statements: Vec::new(),
        })
    }

    /// A database with its commands, and its first `count` statements; nothing if it doesn't build.
    pub fn of_database(d: &Database, count: usize) -> Option<Night> {
        let mut night = Night::try_new(d.provable, d.logic, d.rule_words(), d.command_words())?;
        d.statements.iter().take(count).for_each(|statement| night.push(&statement.tokens));
        Some(night)
    }

    pub fn push(&mut self, tokens: &[u32]) {
        self.statements.push(tokens.len() as u32);
        self.statements.extend_from_slice(tokens);
    }

    /// Each statement, its typecode first.
    pub fn each(&self) -> impl Iterator<Item = &[u32]> {
        let mut rest = &self.statements[..];
        std::iter::from_fn(move || {
            let (&count, after) = rest.split_first()?;
            let (tokens, others) = after.split_at(count as usize);
            rest = others;
            Some(tokens)
        })
    }

    pub fn count(&self) -> usize {
        self.each().count()
    }

    pub fn rule_count(&self) -> usize {
        let mut rest = &self.rules[..];
        let mut count = 0;
        while let [_, length, after @ ..] = rest {
            rest = &after[ITEM_WIDTH * *length as usize..];
            count += 1;
        }
        count
    }

    pub fn row_count(&self) -> usize {
        self.edges.len() / ROW_WIDTH
    }

    /// A word for each constant up to the greatest that leaves node 0.
    fn constants(&self) -> usize {
        let rows = self.edges.chunks_exact(ROW_WIDTH).take_while(|row| row[..2] == [0, 0]);
        rows.last().map_or(0, |row| row[2] as usize + 1)
    }

    /// Room for each statement alone.
    fn longest(&self) -> Room {
        Room::for_tokens(self.each().map(<[u32]>::len).max().unwrap_or(0))
    }

    /// Passes that are enough for each statement.
    pub fn allowance(&self) -> u32 {
        self.longest().allowance
    }

    /// A word of list for each word of the statements, and what the last one may need meanwhile.
    fn list_room(&self) -> usize {
        self.statements.len() + self.longest().list
    }

    pub fn lent(&self) -> Lent {
        let room = self.longest();
        Lent {
            frames: vec![0; room.frames],
            list: vec![0; self.list_room()],
            work: vec![0; room.list],
            answers: vec![0; ANSWER_WIDTH * self.count()],
            index: vec![0; self.least_index() + self.constants()],
        }
    }

    /// The index words without which a batch is refused.
    fn least_index(&self) -> usize {
        self.rule_count() + self.nodes.len() + 1
    }

    /// With no more index than that, so that node 0's rows are searched.
    pub fn lent_least(&self) -> Lent {
        let mut lent = self.lent();
        lent.index.truncate(self.least_index());
        lent
    }

    /// Of the same lengths.
    pub fn buffers(&self) -> Buffers {
        let room = self.longest();
        Buffers::new(room.frames, self.list_room(), room.list, self.count())
    }

    pub fn tables(&self) -> Tables {
        Tables::read(self.provable, self.logic, &self.rules, &self.nodes, &self.edges)
    }
}

/// The slices of a batch.
#[derive(Clone, Debug, PartialEq, Eq)]
pub struct Lent {
    pub frames: Vec<u32>,
    pub list: Vec<u32>,
    pub work: Vec<u32>,
    pub answers: Vec<u32>,
    pub index: Vec<u32>,
}

/// A night of the library. It stays a function of its own, so that its instructions can be told from others.
#[inline(never)]
pub fn library_night(night: &Night, allowance: u32, lent: &mut Lent) -> Batch {
    parse_many(
        night.provable,
        night.logic,
        &night.rules,
        &night.nodes,
        &night.edges,
        &night.statements,
        allowance,
        &mut lent.frames,
        &mut lent.list,
        &mut lent.work,
        &mut lent.answers,
        &mut lent.index,
    )
}

/// A night of the ordinary program: it reads rules and tables, where the library checks them, and parses.
#[inline(never)]
pub fn ordinary_night(night: &Night, allowance: u32, buffers: &mut Buffers) {
    let tables = night.tables();
    buffers.parse_many(&tables, &night.statements, allowance);
}

// ---- nights in files

/// The words of a file, the least significant byte of each first.
fn words(folder: &Path, name: &str) -> io::Result<Vec<u32>> {
    let bytes = std::fs::read(folder.join(name))?;
    let word = |bytes: &[u8]| bytes.iter().rev().fold(0, |word, &byte| word << 8 | u32::from(byte));
    Ok(bytes.chunks_exact(4).map(word).collect())
}

impl Night {
    pub fn write(&self, folder: &Path) -> io::Result<()> {
        std::fs::create_dir_all(folder)?;
        let codes = vec![self.provable, self.logic];
        let files = [&codes, &self.rules, &self.commands, &self.nodes, &self.edges, &self.statements];
        for (name, words) in FILES.iter().zip(files) {
            let bytes: Vec<u8> = words.iter().flat_map(|word| word.to_le_bytes()).collect();
            std::fs::write(folder.join(name), bytes)?;
        }
        Ok(())
    }

    pub fn read(folder: &Path) -> io::Result<Night> {
        let mut files = FILES.iter().map(|name| words(folder, name));
        let mut next = || files.next().expect("there is one for each");
        let codes = next()?;
        Ok(Night {
            provable: codes[0],
            logic: codes[1],
            rules: next()?,
            commands: next()?,
            nodes: next()?,
            edges: next()?,
            statements: next()?,
        })
    }
}

const FILES: [&str; 6] = ["codes.bin", "rules.bin", "commands.bin", "nodes.bin", "edges.bin", "statements.bin"];
