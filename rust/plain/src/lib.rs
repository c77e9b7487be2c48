//! The scope paper and its change requests in ordinary Rust: vectors, maps, allocation where it is convenient.
//!
//! It shares no code with the proved library, so that an answer on which both agree was reached twice.
//! The modules are the paper's rooms, leaves first; [`words`] has the entry points over slices, with the library's signatures.
//! [`Grammar`] is what a caller keeps who parses many statements over the same tables.

mod check;
mod forest;
mod garden;
mod grammar;
mod grow;
mod numbers;
mod package;
mod rows;
mod rules;
mod walk;
pub mod words;

pub use check::check;
pub use garden::{Command, Taken};
pub use grammar::Grammar;
pub use grow::{grow, Room, Tree};
pub use numbers::{NodeNo, Refusal, RuleNo, Symbol, TOKEN_LIMIT};
pub use package::{counted, Contents};
pub use rows::{Edge, Key, Node, Reduce, Row, Tables};
pub use rules::{Item, Rule, Rules, Typecodes};
pub use walk::{Rooms, Walk, Walked};
pub use words::{body, build, package_read, package_write, parse, parse_many, verify, Answer, Batch, Built, Package, Stretch, Written};
