//! The wrapper and the library below it, by running them.

mod entry;
mod examples;
mod garden;
mod layout;
mod long;
mod many;
mod package;
mod refusals;
mod room;
mod rules;
mod sets;
mod sheet;
mod tables;
mod trees;
