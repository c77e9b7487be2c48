//! What is run after the rules: garden paths and type conversions, in order.

use std::collections::HashSet;

use crate::errors::{BuildError, RefusedRules};
use crate::grammar::Grammar;
use crate::limits::{FRAME_WIDTH, MOST_CLONES, MOST_EDGES, MOST_NODES, ROW_WIDTH};
use crate::numbers::{Item, Label};
use crate::rules::Rules;
use crate::tables::Tables;
use crate::words;

/// One command.
#[derive(Clone, Debug, PartialEq, Eq, Hash)]
pub enum Command {
    /// What the prefix begins is also known as what the shadow has a slot for.
    GardenPath {
        /// Items that lead into the tree, from node 0 on.
        prefix: Vec<Label>,
        /// The same items up to where it has a slot instead.
        shadow: Vec<Label>,
    },
    /// The rules of one slot.
    TypeConversions,
}

impl Command {
    fn push_words(&self, words: &mut Vec<u32>) {
        match self {
            Command::TypeConversions => words.push(2),
            Command::GardenPath { prefix, shadow } => {
                // no slice of the greatest length a word can hold is lent, so that such a count is refused
                let counts = [prefix, shadow].map(|list| u32::try_from(list.len()).unwrap_or(u32::MAX));
                words.push(1);
                words.extend(counts);
                words.extend(prefix.iter().chain(shadow).flat_map(|label| label.words()));
            }
        }
    }
}

/// Rules, and commands to be run after them. [`Grammar::builder`] makes one.
///
/// In a set of rules like `( A X. B )` for a class and `( ph -> ps )` for a wff, a walk that has read `(` and then a class follows the first rule, and
/// is lost where the class turns out to begin a wff. The garden path of the prefix `( A` and the shadow `( ph` tells the tree that.
///
/// ```
/// use jiehkavon::{Grammar, Label, Rules, Statement, Symbol};
///
/// # fn main() -> Result<(), Box<dyn std::error::Error>> {
/// let symbol = |word: u32| Symbol::try_from(word);
/// let (provable, wff, class) = (symbol(1)?, symbol(2)?, symbol(3)?);
/// let [open, close, implies, equals, plus] = [5, 6, 7, 8, 9].map(|word| Label::Constant(symbol(word).unwrap()));
/// let (a, p) = (symbol(20)?, symbol(21)?);
///
/// let mut rules = Rules::new(provable, wff);
/// rules.push_numbered(class, &[Label::Constant(a)]);
/// rules.push_numbered(wff, &[Label::Constant(p)]);
/// rules.push_numbered(wff, &[Label::Slot(class), equals, Label::Slot(class)]);
/// rules.push_numbered(class, &[open, Label::Slot(class), plus, Label::Slot(class), close]);
/// rules.push_numbered(wff, &[open, Label::Slot(wff), implies, Label::Slot(wff), close]);
///
/// // ( a = a -> p )
/// let statement: Statement = [1, 5, 20, 8, 20, 7, 21, 6].map(|word| symbol(word).unwrap()).into_iter().collect();
/// assert_eq!(Grammar::build(rules.clone())?.parse(&statement).unwrap_err().number(), 2);
///
/// let grammar = Grammar::builder(rules)
///     .garden_path(&[open, Label::Slot(class)], &[open, Label::Slot(wff)])
///     .type_conversions()
///     .build()?;
/// assert_eq!(grammar.parse(&statement)?.to_string(), "1 1 3 2 5");
/// # Ok(())
/// # }
/// ```
#[derive(Clone, Debug, PartialEq, Eq)]
pub struct GrammarBuilder {
    rules: Rules,
    commands: Vec<Command>,
}

impl GrammarBuilder {
    pub(crate) fn new(rules: Rules) -> GrammarBuilder {
        GrammarBuilder {
            rules,
            commands: Vec::new(),
        }
    }

    /// A further command: a garden path.
    #[must_use]
    pub fn garden_path(self, prefix: &[Label], shadow: &[Label]) -> GrammarBuilder {
        self.command(Command::GardenPath {
            prefix: prefix.to_vec(),
            shadow: shadow.to_vec(),
        })
    }

    /// A further command: the type conversions. Where none asks for them, they are run after the last one.
    #[must_use]
    pub fn type_conversions(self) -> GrammarBuilder {
        self.command(Command::TypeConversions)
    }

    /// A further command.
    #[must_use]
    pub fn command(mut self, command: Command) -> GrammarBuilder {
        self.commands.push(command);
        self
    }

    /// The rules.
    pub fn rules(&self) -> &Rules {
        &self.rules
    }

    /// The commands, in order.
    pub fn commands(&self) -> &[Command] {
        &self.commands
    }

    /// The tree of the rules and commands, or why there is none: which command it was that was refused, and the rules back.
    ///
    /// [`BuildError::NodesFull`] and [`BuildError::EdgesFull`] mean that the tree passes a limit, which most garden paths that copy without an end do.
    /// [`BuildError::FramesFull`] never comes.
    pub fn build(self) -> Result<Grammar, RefusedRules> {
        match tree(&self.rules, &self.commands) {
            Ok(tables) => Ok(Grammar::with_tables(self.rules, tables)),
            Err(why) => {
                let command = match why {
                    BuildError::BadRules | BuildError::Collision => None,
                    _ => self.refused(),
                };
                Err(RefusedRules::new(why, command, self.rules))
            }
        }
    }

    /// The first command with which a build is refused that has no further ones; none if the rules alone are, or no such build is. The rules are
    /// good and don't collide.
    fn refused(&self) -> Option<usize> {
        let alone = |count| tree(&self.up_to(count), &self.commands[..count]).is_err();
        (0..=self.commands.len()).find(|&count| alone(count)).filter(|&count| count > 0)
    }

    /// Rules for a build with the first commands only. Conversions that none of these asks for would be run last and could be refused
    /// themselves, so they are left out. They have no part in anything else: what a garden path does is the same, rules being numbered otherwise.
    fn up_to(&self, count: usize) -> Rules {
        if self.commands[..count].contains(&Command::TypeConversions) {
            return self.rules.clone();
        }
        let mut rules = Rules::new(self.rules.provable(), self.rules.logic());
        for rule in self.rules.numbers() {
            match (self.rules.result(rule), self.rules.items(rule)) {
                (Some(_), Some([Item::Slot { .. }])) | (None, _) | (_, None) => {}
                (Some(result), Some(items)) => drop(rules.push(result, items)),
            }
        }
        rules
    }
}

/// Frames that are lent at first: some more than set.mm needs, which is 12.
const FRAMES: usize = 256;

/// The tables of rules and commands. Where there is a garden path, all nodes and edges are lent that a tree may have, and as many frames as can
/// be needed once a few were too few.
fn tree(rules: &Rules, commands: &[Command]) -> Result<Tables, BuildError> {
    let mut words = Vec::new();
    commands.iter().for_each(|command| command.push_words(&mut words));
    match commands.iter().all(|command| *command == Command::TypeConversions) {
        true => tables(rules, &words, Room::of(rules)),
        false => match tables(rules, &words, Room::most(FRAMES)) {
            Err(BuildError::FramesFull) => tables(rules, &words, Room::most(MOST_CLONES)),
            answer => answer,
        },
    }
}

fn tables(rules: &Rules, commands: &[u32], room: Room) -> Result<Tables, BuildError> {
    let mut nodes = vec![0; room.nodes];
    let mut edges = vec![0; room.edges * ROW_WIDTH];
    let mut frames = vec![0; room.frames * FRAME_WIDTH];
    let (provable, logic) = (rules.provable().word(), rules.logic().word());
    let built = words::build(provable, logic, rules.words(), commands, &mut nodes, &mut edges, &mut frames);
    if let Some(why) = BuildError::of(built) {
        return Err(why);
    }
    // the counts are at most the room, so that they fit and only zeros are cut off
    shorten(&mut nodes, built.nodes, 1);
    shorten(&mut edges, built.edges, ROW_WIDTH);
    Ok(Tables::built(nodes, edges))
}

/// Room that a build of some rules can't run out of, up to the limits, if no command is a garden path.
///
/// Conversions make no nodes. Each other rule makes at most one node for each of its items, the last of them a leaf, and there is node 0.
///
/// No two rows have one key: growing follows an edge that is there, and copying keeps it. A row's key is the branch that it leaves and an item of
/// some rule, since a conversion gives the new row either its own slot or the item of the row it copies. So there are at most as many rows as
/// branches times different items.
struct Room {
    nodes: usize,
    edges: usize,
    frames: usize,
}

impl Room {
    fn of(rules: &Rules) -> Room {
        let bodies = || rules.numbers().filter_map(|rule| rules.items(rule));
        let placed = || bodies().filter(|items| !matches!(items, [Item::Slot { .. }]));
        let items: usize = placed().map(|items| items.len()).sum();
        let branches = 1 + items.saturating_sub(placed().count());
        let labels: HashSet<Label> = bodies().flatten().map(|item| item.label()).collect();
        Room {
            nodes: MOST_NODES.min(1 + items),
            edges: MOST_EDGES.min(branches.saturating_mul(labels.len())),
            frames: 0,
        }
    }

    /// All that a tree may have: garden paths copy, and no bound for that is known that is worth working out.
    fn most(frames: usize) -> Room {
        Room {
            nodes: MOST_NODES,
            edges: MOST_EDGES,
            frames,
        }
    }
}

/// A table is cut to its rows.
fn shorten(table: &mut Vec<u32>, rows: u32, width: usize) {
    table.truncate(usize::try_from(rows).map_or(usize::MAX, |rows| rows.saturating_mul(width)));
    table.shrink_to_fit();
}
