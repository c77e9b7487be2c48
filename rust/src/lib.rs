//! A Metamath statement parser that is proved: what this crate wraps is written in Rattle, and its proofs say what each call gives back.
//!
//! Rules say what well formed expressions look like. [`Grammar::build`] makes a tree of them, [`Grammar::parse`] walks a statement's tokens
//! through the tree, and what comes out is a [`Formula`], the rules used in postfix order. [`Grammar::verify`] checks any such list against any
//! statement, without the tree.
//!
//! ```
//! use jiehkavon::{Formula, Grammar, Item, ParseError, Rules, Statement, Symbol, Variable};
//!
//! # fn main() -> Result<(), Box<dyn std::error::Error>> {
//! let (provable, logic) = (Symbol::try_from(1)?, Symbol::try_from(2)?);
//! let (open, close, and) = (Symbol::try_from(5)?, Symbol::try_from(6)?, Symbol::try_from(7)?);
//! let (low, dry) = (Symbol::try_from(10)?, Symbol::try_from(11)?);
//!
//! // two variables, and ( low and dry ) for any expressions in their place
//! let slot = |variable| Item::Slot { typecode: logic, variable: Variable(variable) };
//! let mut rules = Rules::new(provable, logic);
//! let low_rule = rules.push(logic, &[Item::Constant(low)]);
//! let dry_rule = rules.push(logic, &[Item::Constant(dry)]);
//! let and_rule = rules.push(
//!     logic,
//!     &[Item::Constant(open), slot(low), Item::Constant(and), slot(dry), Item::Constant(close)],
//! );
//! let grammar = Grammar::build(rules)?;
//!
//! // the typecode, then ( low and dry )
//! let statement: Statement = [provable, open, low, and, dry, close].into_iter().collect();
//! let formula = grammar.parse(&statement)?;
//! assert_eq!(formula, [low_rule, dry_rule, and_rule].into_iter().collect::<Formula>());
//! grammar.verify(&statement, &formula)?;
//!
//! // the same as a tree
//! let tree = formula.tree(grammar.rules()).ok_or("no tree")?;
//! assert_eq!(tree.root().rule(), and_rule);
//! assert!(tree.root().children().map(|child| child.rule()).eq([low_rule, dry_rule]));
//! assert_eq!(tree.root().tokens(), [open, low, and, dry, close]);
//! assert_eq!(formula.to_string(), "1 2 3");
//!
//! // a refusal has the paper's number and says where
//! let unfinished: Statement = [provable, open, low].into_iter().collect();
//! let refusal = grammar.parse(&unfinished).unwrap_err();
//! assert_eq!(refusal, ParseError::Unfinished { place: 2, passes: 5 });
//! assert_eq!(refusal.to_string(), "parse refused with 3: the statement ends where a rule wants more, at token 2");
//! # Ok(())
//! # }
//! ```
//!
//! Rules and statements also come as one file, a [`Package`]. Many statements are parsed faster by [`Parser::parse_many`], which gives the
//! library many at once.
//!
//! Where one rule begins with what another one has a slot for, a tree alone goes wrong; [`Grammar::builder`] takes garden paths for that.
//!
//! Nothing here panics, whatever words arrive, and nothing runs short: buffers are sized by bounds that are proved ([`Room`]) or derived
//! ([`Grammar::build`]). Who wants to lend buffers of another size, or has words of unknown origin, calls the entry points in [`words`].

#![deny(missing_docs, unsafe_code)]

mod batch;
mod commands;
mod errors;
mod formula;
mod grammar;
pub mod limits;
mod numbers;
mod package;
mod parser;
mod rules;
mod statement;
mod tables;
#[allow(unsafe_code)]
pub mod words;

pub use batch::ParseMany;
pub use commands::{Command, GrammarBuilder};
pub use errors::{BuildError, KeyTwice, ParseError, ReadError, RefusedRules, VerifyError, WriteError};
pub use formula::{Formula, Preorder, Subtree, Tree};
pub use grammar::Grammar;
pub use numbers::{Item, Label, NodeNo, NotASymbol, RuleNo, Symbol, Variable};
pub use package::Package;
pub use parser::{Parsed, Parser, Room};
pub use rules::Rules;
pub use statement::Statement;
pub use tables::{Edge, Node, Reduce, Tables};
