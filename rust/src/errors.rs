//! Refusals, by their number in the paper.

use std::error::Error;
use std::fmt;

use crate::numbers::{Label, NodeNo};
use crate::rules::Rules;
use crate::words::{Answer, Built, Read, Written};

/// Two rows of an edge table with one key. The library refuses such tables with 8 and says no more, so that they are found out where
/// [`Tables`](crate::Tables) are made.
#[derive(Clone, Copy, Debug, PartialEq, Eq, Hash)]
pub struct KeyTwice {
    /// The node that both edges leave.
    pub from: NodeNo,
    /// What has to be met for either to be followed.
    pub label: Label,
    /// The two rows, counted from 0 in the table as it was given.
    pub rows: [usize; 2],
}

impl fmt::Display for KeyTwice {
    fn fmt(&self, f: &mut fmt::Formatter) -> fmt::Result {
        let [first, second] = self.rows;
        let (kind, symbol) = match self.label {
            Label::Constant(symbol) => ("constant", symbol),
            Label::Slot(typecode) => ("slot", typecode),
        };
        write!(
            f,
            "rows {first} and {second} are both the edge of node {} for the {kind} {symbol}",
            self.from
        )
    }
}

impl Error for KeyTwice {}

/// Why a build was refused. A refused build leaves nothing behind.
#[derive(Clone, Copy, Debug, PartialEq, Eq, Hash)]
#[non_exhaustive]
pub enum BuildError {
    /// 6: a garden path needs a frame and none is free. A [`Grammar`](crate::Grammar) lends enough, so it never says this; it is there for
    /// callers of [`words`](crate::words).
    FramesFull,
    /// 10: a word of the rules is out of its range, a rule has one variable in two slots, a result is the provable typecode, or the provable and the
    /// logic typecode are one.
    BadRules,
    /// 11: a rule's body equals, begins or continues that of an earlier rule.
    Collision,
    /// 12: a node is needed and none is free.
    NodesFull,
    /// 13: an edge is needed and none is free.
    EdgesFull,
    /// 14: an edge would get a sixth reduce, or a garden path would store one.
    SixthReduce,
    /// 15: a garden path would raise an offset past [`MOST_OFFSET`](crate::limits::MOST_OFFSET).
    OffsetTooLarge,
    /// 16: a conversion or a garden path would copy from or to a leaf, or a node to itself; or a garden path doesn't fit the tree; or words are
    /// no command.
    BadCopy,
    /// 17: a garden path would take up more than [`MOST_TAKEN`](crate::limits::MOST_TAKEN) edges.
    TooManyTaken,
    /// A number that no build answers with. The library is proved not to; the type of a C function can't say that.
    Unlisted(u32),
}

impl BuildError {
    /// What an answer of [`crate::words::build`] refuses; none if it is 0.
    pub fn of(built: Built) -> Option<BuildError> {
        match built.number {
            0 => None,
            6 => Some(BuildError::FramesFull),
            10 => Some(BuildError::BadRules),
            11 => Some(BuildError::Collision),
            12 => Some(BuildError::NodesFull),
            13 => Some(BuildError::EdgesFull),
            14 => Some(BuildError::SixthReduce),
            15 => Some(BuildError::OffsetTooLarge),
            16 => Some(BuildError::BadCopy),
            17 => Some(BuildError::TooManyTaken),
            number => Some(BuildError::Unlisted(number)),
        }
    }

    /// The paper's number.
    pub fn number(&self) -> u32 {
        match *self {
            BuildError::FramesFull => 6,
            BuildError::BadRules => 10,
            BuildError::Collision => 11,
            BuildError::NodesFull => 12,
            BuildError::EdgesFull => 13,
            BuildError::SixthReduce => 14,
            BuildError::OffsetTooLarge => 15,
            BuildError::BadCopy => 16,
            BuildError::TooManyTaken => 17,
            BuildError::Unlisted(number) => number,
        }
    }
}

impl fmt::Display for BuildError {
    fn fmt(&self, f: &mut fmt::Formatter<'_>) -> fmt::Result {
        let why = match self {
            BuildError::FramesFull => "a garden path needs more frames than there is room for",
            BuildError::BadRules => "the rules are bad",
            BuildError::Collision => "two rules have bodies of which one begins the other",
            BuildError::NodesFull => "the tree needs more nodes than there is room for",
            BuildError::EdgesFull => "the tree needs more edges than there is room for",
            BuildError::SixthReduce => "an edge, or a list on the way to one, would get a sixth reduce",
            BuildError::OffsetTooLarge => "an offset would be raised past 255",
            BuildError::BadCopy => "a copy from or to a leaf, or of a node to itself, or a garden path that doesn't fit the tree",
            BuildError::TooManyTaken => "a garden path would take up too many edges",
            BuildError::Unlisted(_) => "the library gave a number that no build answers with",
        };
        write!(f, "build refused with {}: {why}", self.number())
    }
}

impl Error for BuildError {}

/// Rules whose tree was refused: why, and the rules themselves, so that they can be mended and tried again.
#[derive(Clone, Debug, PartialEq, Eq)]
pub struct RefusedRules {
    why: BuildError,
    command: Option<usize>,
    rules: Rules,
}

impl RefusedRules {
    pub(crate) fn new(why: BuildError, command: Option<usize>, rules: Rules) -> RefusedRules {
        RefusedRules { why, command, rules }
    }

    /// Why there is no tree.
    pub fn why(&self) -> BuildError {
        self.why
    }

    /// The paper's number.
    pub fn number(&self) -> u32 {
        self.why.number()
    }

    /// The command that was refused, counted from 1 in the order in which they were given. None if it was the rules, or the conversions that come
    /// last where no command asks for them.
    pub fn command(&self) -> Option<usize> {
        self.command
    }

    /// The rules, as they were handed over.
    pub fn rules(&self) -> &Rules {
        &self.rules
    }

    /// The rules back.
    pub fn into_rules(self) -> Rules {
        self.rules
    }
}

impl fmt::Display for RefusedRules {
    fn fmt(&self, f: &mut fmt::Formatter<'_>) -> fmt::Result {
        self.why.fmt(f)?;
        match self.command {
            Some(command) => write!(f, ", at command {command}"),
            None => Ok(()),
        }
    }
}

impl Error for RefusedRules {}

/// The reason alone, for who has no use for the rules.
impl From<RefusedRules> for BuildError {
    fn from(refused: RefusedRules) -> BuildError {
        refused.why
    }
}

/// Why a statement was not parsed. Places count the statement's typecode as 0.
#[derive(Clone, Copy, Debug, PartialEq, Eq, Hash)]
#[non_exhaustive]
pub enum ParseError {
    /// 1: the statement has fewer than two tokens.
    TooShort,
    /// 2: no rule goes on at this token.
    Unparseable {
        /// The token that was looked at last.
        place: usize,
        /// The passes used, the refused one among them.
        passes: u32,
    },
    /// 3: the statement ended where a rule wants more.
    Unfinished {
        /// The last token.
        place: usize,
        /// The passes used, the refused one among them.
        passes: u32,
    },
    /// 4: what the walk came to is no well typed tree that spells the statement.
    NotWellTyped {
        /// The passes used, the refused one among them.
        passes: u32,
    },
    /// 5: a further pass is needed and the allowance is used up.
    PassesUsedUp {
        /// The passes used: the allowance.
        passes: u32,
    },
    /// 6: a frame is needed and the frame room is full.
    FramesFull {
        /// The passes used, the refused one among them.
        passes: u32,
    },
    /// 7: a list entry is needed and the list room is full.
    ListFull {
        /// The passes used, the refused one among them.
        passes: u32,
    },
    /// 8: the nodes or the edges are bad.
    BadTables,
    /// 9: the statement has more than [`MOST_TOKENS`](crate::limits::MOST_TOKENS) tokens.
    TooLong,
    /// 10: the rules are bad.
    BadRules,
    /// A number that no parse answers with. The library is proved not to; the type of a C function can't say that.
    Unlisted(u32),
}

impl ParseError {
    /// What an answer of [`crate::words::parse`] refuses; none if it is 0.
    pub fn of(answer: Answer) -> Option<ParseError> {
        let passes = answer.passes;
        // no statement that is walked has more tokens than fit
        let place = usize::try_from(answer.place).unwrap_or(usize::MAX);
        match answer.number {
            0 => None,
            1 => Some(ParseError::TooShort),
            2 => Some(ParseError::Unparseable { place, passes }),
            3 => Some(ParseError::Unfinished { place, passes }),
            4 => Some(ParseError::NotWellTyped { passes }),
            5 => Some(ParseError::PassesUsedUp { passes }),
            6 => Some(ParseError::FramesFull { passes }),
            7 => Some(ParseError::ListFull { passes }),
            8 => Some(ParseError::BadTables),
            9 => Some(ParseError::TooLong),
            10 => Some(ParseError::BadRules),
            number => Some(ParseError::Unlisted(number)),
        }
    }

    /// The paper's number.
    pub fn number(&self) -> u32 {
        match *self {
            ParseError::TooShort => 1,
            ParseError::Unparseable { .. } => 2,
            ParseError::Unfinished { .. } => 3,
            ParseError::NotWellTyped { .. } => 4,
            ParseError::PassesUsedUp { .. } => 5,
            ParseError::FramesFull { .. } => 6,
            ParseError::ListFull { .. } => 7,
            ParseError::BadTables => 8,
            ParseError::TooLong => 9,
            ParseError::BadRules => 10,
            ParseError::Unlisted(number) => number,
        }
    }

    /// The token that the refusal is about, if it is about one.
    pub fn place(&self) -> Option<usize> {
        match *self {
            ParseError::Unparseable { place, .. } | ParseError::Unfinished { place, .. } => Some(place),
            _ => None,
        }
    }

    /// The passes used; 0 where the walk was not begun.
    pub fn passes(&self) -> u32 {
        match *self {
            ParseError::Unparseable { passes, .. }
            | ParseError::Unfinished { passes, .. }
            | ParseError::NotWellTyped { passes }
            | ParseError::PassesUsedUp { passes }
            | ParseError::FramesFull { passes }
            | ParseError::ListFull { passes } => passes,
            _ => 0,
        }
    }
}

impl fmt::Display for ParseError {
    fn fmt(&self, f: &mut fmt::Formatter<'_>) -> fmt::Result {
        let why = match self {
            ParseError::TooShort => "the statement has fewer than two tokens",
            ParseError::Unparseable { .. } => "no rule goes on",
            ParseError::Unfinished { .. } => "the statement ends where a rule wants more",
            ParseError::NotWellTyped { .. } => "no well typed tree that spells the statement came out",
            ParseError::PassesUsedUp { .. } => "the allowance of passes is used up",
            ParseError::FramesFull { .. } => "the frame room is full",
            ParseError::ListFull { .. } => "the list room is full",
            ParseError::BadTables => "the node or edge table is bad",
            ParseError::TooLong => "the statement has too many tokens",
            ParseError::BadRules => "the rules are bad",
            ParseError::Unlisted(_) => "the library gave a number that no parse answers with",
        };
        write!(f, "parse refused with {}: {why}", self.number())?;
        match self.place() {
            Some(place) => write!(f, ", at token {place}"),
            None => Ok(()),
        }
    }
}

impl Error for ParseError {}

/// Why the check alone said no.
#[derive(Clone, Copy, Debug, PartialEq, Eq, Hash)]
#[non_exhaustive]
pub enum VerifyError {
    /// 1: the statement has fewer than two tokens.
    TooShort,
    /// 4: the list is no well typed tree of the stated typecode that spells the statement.
    NotWellTyped,
    /// 7: the work slice is shorter than the list.
    WorkTooShort,
    /// 9: the statement has more than [`MOST_TOKENS`](crate::limits::MOST_TOKENS) tokens.
    TooLong,
    /// 10: the rules are bad.
    BadRules,
    /// A number that no check answers with. The library is proved not to; the type of a C function can't say that.
    Unlisted(u32),
}

impl VerifyError {
    /// What an answer of [`crate::words::verify`] refuses; none if it is 0.
    pub fn of(answer: Answer) -> Option<VerifyError> {
        match answer.number {
            0 => None,
            1 => Some(VerifyError::TooShort),
            4 => Some(VerifyError::NotWellTyped),
            7 => Some(VerifyError::WorkTooShort),
            9 => Some(VerifyError::TooLong),
            10 => Some(VerifyError::BadRules),
            number => Some(VerifyError::Unlisted(number)),
        }
    }

    /// The paper's number.
    pub fn number(&self) -> u32 {
        match *self {
            VerifyError::TooShort => 1,
            VerifyError::NotWellTyped => 4,
            VerifyError::WorkTooShort => 7,
            VerifyError::TooLong => 9,
            VerifyError::BadRules => 10,
            VerifyError::Unlisted(number) => number,
        }
    }
}

impl fmt::Display for VerifyError {
    fn fmt(&self, f: &mut fmt::Formatter<'_>) -> fmt::Result {
        let why = match self {
            VerifyError::TooShort => "the statement has fewer than two tokens",
            VerifyError::NotWellTyped => "the list is no well typed tree that spells the statement",
            VerifyError::WorkTooShort => "the work slice is shorter than the list",
            VerifyError::TooLong => "the statement has too many tokens",
            VerifyError::BadRules => "the rules are bad",
            VerifyError::Unlisted(_) => "the library gave a number that no check answers with",
        };
        write!(f, "check refused with {}: {why}", self.number())
    }
}

impl Error for VerifyError {}

/// Why a package was not read. Records are counted from 0.
#[derive(Clone, Copy, Debug, PartialEq, Eq, Hash)]
#[non_exhaustive]
pub enum ReadError {
    /// 7: the rules or the statements don't fit the slice lent for them.
    RoomTooShort,
    /// 10: the rules, or the two typecodes, are bad.
    BadRules,
    /// 20: a record's length is cut short, is under 2, or goes past the end of the package.
    BadLength {
        /// The record.
        record: usize,
    },
    /// 21: there is no such kind of record.
    UnknownKind {
        /// The record.
        record: usize,
    },
    /// 22: the record's body has a size that its kind can't have.
    WrongSize {
        /// The record.
        record: usize,
    },
    /// 23: the record may not stand here, is missing, or comes after the end.
    WrongOrder {
        /// The record: where it is missing or comes after the end, the one that would be next.
        record: usize,
    },
    /// A number that no read answers with. The library is proved not to; the type of a C function can't say that.
    Unlisted(u32),
}

impl ReadError {
    /// What an answer of [`crate::words::package_read`] refuses; none if it is 0.
    pub fn of(read: Read) -> Option<ReadError> {
        let record = read.place;
        match read.number {
            0 => None,
            7 => Some(ReadError::RoomTooShort),
            10 => Some(ReadError::BadRules),
            20 => Some(ReadError::BadLength { record }),
            21 => Some(ReadError::UnknownKind { record }),
            22 => Some(ReadError::WrongSize { record }),
            23 => Some(ReadError::WrongOrder { record }),
            number => Some(ReadError::Unlisted(number)),
        }
    }

    /// The paper's number.
    pub fn number(&self) -> u32 {
        match *self {
            ReadError::RoomTooShort => 7,
            ReadError::BadRules => 10,
            ReadError::BadLength { .. } => 20,
            ReadError::UnknownKind { .. } => 21,
            ReadError::WrongSize { .. } => 22,
            ReadError::WrongOrder { .. } => 23,
            ReadError::Unlisted(number) => number,
        }
    }

    /// The record that the refusal is about, if it is about one.
    pub fn record(&self) -> Option<usize> {
        match *self {
            ReadError::BadLength { record }
            | ReadError::UnknownKind { record }
            | ReadError::WrongSize { record }
            | ReadError::WrongOrder { record } => Some(record),
            _ => None,
        }
    }
}

impl fmt::Display for ReadError {
    fn fmt(&self, f: &mut fmt::Formatter<'_>) -> fmt::Result {
        let why = match self {
            ReadError::RoomTooShort => "the rules or the statements don't fit the room lent for them",
            ReadError::BadRules => "the rules are bad",
            ReadError::BadLength { .. } => "a record's length is cut short, under 2, or goes past the end",
            ReadError::UnknownKind { .. } => "there is no such kind of record",
            ReadError::WrongSize { .. } => "a record's body has the wrong size",
            ReadError::WrongOrder { .. } => "a record stands in a wrong place, is missing, or comes after the end record",
            ReadError::Unlisted(_) => "the library gave a number that no read answers with",
        };
        write!(f, "read refused with {}: {why}", self.number())?;
        match self.record() {
            Some(record) => write!(f, ", at record {record}"),
            None => Ok(()),
        }
    }
}

impl Error for ReadError {}

/// Why a package was not written.
#[derive(Clone, Copy, Debug, PartialEq, Eq, Hash)]
#[non_exhaustive]
pub enum WriteError {
    /// 7: the package doesn't fit the slice lent for it.
    RoomTooShort,
    /// 10: the rules, or the two typecodes, are bad.
    BadRules,
    /// 22: a statement is too long for the length of its record, or the words lent end within a statement.
    WrongSize,
    /// A number that no write answers with. The library is proved not to; the type of a C function can't say that.
    Unlisted(u32),
}

impl WriteError {
    /// What an answer of [`crate::words::package_write`] refuses; none if it is 0.
    pub fn of(written: Written) -> Option<WriteError> {
        match written.number {
            0 => None,
            7 => Some(WriteError::RoomTooShort),
            10 => Some(WriteError::BadRules),
            22 => Some(WriteError::WrongSize),
            number => Some(WriteError::Unlisted(number)),
        }
    }

    /// The paper's number.
    pub fn number(&self) -> u32 {
        match *self {
            WriteError::RoomTooShort => 7,
            WriteError::BadRules => 10,
            WriteError::WrongSize => 22,
            WriteError::Unlisted(number) => number,
        }
    }
}

impl fmt::Display for WriteError {
    fn fmt(&self, f: &mut fmt::Formatter<'_>) -> fmt::Result {
        let why = match self {
            WriteError::RoomTooShort => "the package doesn't fit the room lent for it",
            WriteError::BadRules => "the rules are bad",
            WriteError::WrongSize => "a statement is too long for its record, or is not whole",
            WriteError::Unlisted(_) => "the library gave a number that no write answers with",
        };
        write!(f, "write refused with {}: {why}", self.number())
    }
}

impl Error for WriteError {}
