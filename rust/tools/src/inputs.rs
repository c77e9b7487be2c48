//! Generators of what the entry points are given: rule sets, commands, statements, tables, packages, and damage to all of them.

pub mod commands;
pub mod damage;
pub mod gardens;
pub mod limits;
pub mod packages;
pub mod rules;
pub mod samples;
pub mod sentences;
pub mod tables;
#[cfg(test)]
mod tests;

/// Rules and tables as words, as the entry points take them.
#[derive(Clone, Debug, Default, PartialEq, Eq)]
pub struct Grammar {
    pub provable: u32,
    pub logic: u32,
    pub rules: Vec<u32>,
    pub nodes: Vec<u32>,
    pub edges: Vec<u32>,
}
