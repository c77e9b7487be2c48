//! The kinds of numbers, the limits, and the refusals with their numbers and places.

pub const SYMBOL_LIMIT: u32 = 65_535;
pub const VARIABLE_LIMIT: u32 = 65_535;
pub const RULE_LIMIT: usize = 2_048;
pub const ITEM_LIMIT: u32 = 32;
pub const NODE_LIMIT: usize = 8_192;
pub const EDGE_LIMIT: usize = 16_384;
pub const REDUCE_LIMIT: usize = 5;
pub const OFFSET_LIMIT: u32 = 255;
/// Edges that a garden path may take up.
pub const TAKEN_LIMIT: usize = 16_384;
/// The typecode is counted.
pub const TOKEN_LIMIT: usize = 32_769;

/// A constant or a typecode, within the range that tables allow.
#[derive(Clone, Copy, Debug, PartialEq, Eq, PartialOrd, Ord, Hash)]
pub struct Symbol(u32);

impl Symbol {
    pub(crate) const LEAST: Symbol = Symbol(1);
    pub(crate) const GREATEST: Symbol = Symbol(SYMBOL_LIMIT);

    pub fn read(word: u32) -> Option<Symbol> {
        (1..=SYMBOL_LIMIT).contains(&word).then_some(Symbol(word))
    }

    pub fn word(self) -> u32 {
        self.0
    }
}

/// A rule that exists, counted from 1. Only [`crate::Rules`] makes one.
#[derive(Clone, Copy, Debug, PartialEq, Eq, Hash)]
pub struct RuleNo(pub(crate) u32);

impl RuleNo {
    pub fn word(self) -> u32 {
        self.0
    }

    pub(crate) fn index(self) -> usize {
        self.0 as usize - 1
    }
}

/// A node that exists, counted from 0.
#[derive(Clone, Copy, Debug, PartialEq, Eq, PartialOrd, Ord, Hash)]
pub struct NodeNo(pub(crate) u32);

/// Node 0.
pub const ROOT: NodeNo = NodeNo(0);

impl NodeNo {
    pub fn word(self) -> u32 {
        self.0
    }

    pub(crate) fn index(self) -> usize {
        self.0 as usize
    }
}

/// Why an entry point refused. Places of tokens count the typecode token as 0.
#[derive(Clone, Copy, Debug, PartialEq, Eq, Hash)]
pub enum Refusal {
    TooFewTokens,
    Unparseable(usize),
    TokensEnded(usize),
    NoTree,
    PassesUsedUp,
    FramesFull,
    ListFull,
    BadTables,
    TooManyTokens,
    BadRules,
    BodiesCollide,
    NodesFull,
    EdgesFull,
    SixthReduce,
    OffsetPastLimit,
    /// Of the reasons for 16: rows copied from or to a leaf.
    LeafCopied,
    CopiedToItself,
    /// To a leaf, or of a node to itself.
    BadClone,
    BadCommand,
    BadPath,
    NoSecondEdge,
    TooManyTaken,
    /// A package's refusals name a record, counted from 0.
    BadLength(usize),
    UnknownKind(usize),
    WrongSize(usize),
    WrongOrder(usize),
}

impl Refusal {
    pub fn number(self) -> u32 {
        match self {
            Refusal::TooFewTokens => 1,
            Refusal::Unparseable(_) => 2,
            Refusal::TokensEnded(_) => 3,
            Refusal::NoTree => 4,
            Refusal::PassesUsedUp => 5,
            Refusal::FramesFull => 6,
            Refusal::ListFull => 7,
            Refusal::BadTables => 8,
            Refusal::TooManyTokens => 9,
            Refusal::BadRules => 10,
            Refusal::BodiesCollide => 11,
            Refusal::NodesFull => 12,
            Refusal::EdgesFull => 13,
            Refusal::SixthReduce => 14,
            Refusal::OffsetPastLimit => 15,
            Refusal::LeafCopied | Refusal::CopiedToItself | Refusal::BadClone => 16,
            Refusal::BadCommand | Refusal::BadPath | Refusal::NoSecondEdge => 16,
            Refusal::TooManyTaken => 17,
            Refusal::BadLength(_) => 20,
            Refusal::UnknownKind(_) => 21,
            Refusal::WrongSize(_) => 22,
            Refusal::WrongOrder(_) => 23,
        }
    }

    pub fn place(self) -> usize {
        match self {
            Refusal::Unparseable(place) | Refusal::TokensEnded(place) => place,
            Refusal::BadLength(record) | Refusal::UnknownKind(record) => record,
            Refusal::WrongSize(record) | Refusal::WrongOrder(record) => record,
            _ => 0,
        }
    }
}
