//! The limits of the tables and of a statement. The library refuses what passes them, so nothing here has to be kept by a caller.

/// The rules of a set.
pub const MOST_RULES: usize = 2_048;

/// The items of a rule's body.
pub const MOST_ITEMS: usize = 32;

/// The nodes of a tree.
pub const MOST_NODES: usize = 8_192;

/// The edges of a tree.
pub const MOST_EDGES: usize = 16_384;

/// The reduces of an edge.
pub const MOST_REDUCES: usize = 5;

/// The offset of a reduce.
pub const MOST_OFFSET: u32 = 255;

/// The tokens of a statement, its typecode among them.
pub const MOST_TOKENS: usize = 32_769;

/// The words of a rule's item: its kind, its symbol and its variable.
pub const ITEM_WIDTH: usize = 3;

/// The words of an item in a garden path: its kind and its symbol.
pub const LABEL_WIDTH: usize = 2;

/// The words of an edge.
pub const ROW_WIDTH: usize = 16;

/// The words of a statement's answer in a batch: its number, its place, the length of its list and its passes.
pub const ANSWER_WIDTH: usize = 4;

/// The edges that a garden path may take up.
pub const MOST_TAKEN: usize = 16_384;

/// The clones of a garden path that can have begun and not be done, each of which has a frame.
pub const MOST_CLONES: usize = MOST_TAKEN + 1;

/// The words of such a frame.
pub const FRAME_WIDTH: usize = 16;
