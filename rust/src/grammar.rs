//! Rules with the tree that was built from them.

use crate::commands::GrammarBuilder;
use crate::errors::{ParseError, RefusedRules, VerifyError};
use crate::formula::Formula;
use crate::parser::Parser;
use crate::rules::Rules;
use crate::statement::Statement;
use crate::tables::Tables;

/// Rules and their tree: all that it takes to parse.
#[derive(Clone, Debug, PartialEq, Eq)]
pub struct Grammar {
    rules: Rules,
    tables: Tables,
}

impl Grammar {
    /// The tree of the rules, or why there is none, with the rules back. There are no garden paths, and the conversions come last.
    ///
    /// The room lent to the build is a bound on what it can need, or the paper's limit if that is less. So [`BuildError::NodesFull`] and
    /// [`BuildError::EdgesFull`] mean that the tree passes a limit, never that this crate lent too little.
    ///
    /// [`BuildError::NodesFull`]: crate::BuildError::NodesFull
    /// [`BuildError::EdgesFull`]: crate::BuildError::EdgesFull
    pub fn build(rules: Rules) -> Result<Grammar, RefusedRules> {
        Grammar::builder(rules).build()
    }

    /// The rules, to be given garden paths and conversions in order.
    pub fn builder(rules: Rules) -> GrammarBuilder {
        GrammarBuilder::new(rules)
    }

    /// Rules with tables that come from outside. Nothing more is asked of either: the library checks both at each parse, and refuses bad ones with
    /// [`ParseError::BadRules`] or [`ParseError::BadTables`]. Whatever the tables are, a formula that a parse accepts is well typed over the rules
    /// and spells its statement.
    pub fn with_tables(rules: Rules, tables: Tables) -> Grammar {
        Grammar { rules, tables }
    }

    /// The rules.
    pub fn rules(&self) -> &Rules {
        &self.rules
    }

    /// The tree.
    pub fn tables(&self) -> &Tables {
        &self.tables
    }

    /// The formula of a statement, or why there is none. Who parses many statements keeps a [`Parser`] and its buffers.
    pub fn parse(&self, statement: &Statement) -> Result<Formula, ParseError> {
        let mut parser = Parser::new();
        let parsed = parser.parse(self, statement)?;
        Ok(parsed.formula.clone())
    }

    /// Whether a formula, whoever made it, is a well typed tree of the stated typecode that spells the statement. The tables have no part in it.
    pub fn verify(&self, statement: &Statement, formula: &Formula) -> Result<(), VerifyError> {
        Parser::new().verify(self, statement, formula)
    }
}
