//! The entry points as they are: slices of words and bytes in, numbers out.
//!
//! Nothing is asked of the words and bytes: any may stand in any slice. This module is the only one with unsafe code, and all that its calls owe the
//! library is that the slices are there, which a Rust slice always is.

/// What a parse or a check answers.
#[repr(C)]
#[derive(Clone, Copy, Debug, PartialEq, Eq, Hash)]
pub struct Answer {
    /// 0, or the number of the refusal.
    pub number: u32,
    /// The token that a refusal is about, the typecode being token 0; else 0.
    pub place: u32,
    /// How many words at the front of the list slice are the list; 0 for a refusal and for a check.
    pub length: u32,
    /// The passes used, a refused one among them; 0 where no walk was begun, and for a check.
    pub passes: u32,
}

/// What a build answers.
#[repr(C)]
#[derive(Clone, Copy, Debug, PartialEq, Eq, Hash)]
pub struct Built {
    /// 0, or the number of the refusal.
    pub number: u32,
    /// How many words at the front of the node slice are nodes; 0 for a refusal.
    pub nodes: u32,
    /// How many rows of 16 words at the front of the edge slice are edges; 0 for a refusal.
    pub edges: u32,
}

/// What a batch answers.
#[repr(C)]
#[derive(Clone, Copy, Debug, PartialEq, Eq, Hash)]
pub struct Batch {
    /// 0, or the number of the refusal.
    pub number: u32,
    /// The statement that is not whole, counted from 0, where that is the refusal; else 0.
    pub place: usize,
    /// How many statements were answered; 0 for a refusal.
    pub statements: usize,
    /// How many words at the front of the list slice are lists; 0 for a refusal.
    pub words: usize,
}

/// Where a rule's body stands in the rule slice; 0, 0 where there is no body.
#[repr(C)]
#[derive(Clone, Copy, Debug, PartialEq, Eq, Hash)]
pub struct Stretch {
    /// The word that it begins with.
    pub start: u32,
    /// How many words it has, three for each item.
    pub length: u32,
}

/// What reading a package answers.
#[repr(C)]
#[derive(Clone, Copy, Debug, PartialEq, Eq, Hash)]
pub struct Read {
    /// 0, or the number of the refusal.
    pub number: u32,
    /// The record that a refusal is about, counted from 0; else 0.
    pub place: usize,
    /// The provable typecode; 0 for a refusal.
    pub provable: u32,
    /// The logic typecode; 0 for a refusal.
    pub logic: u32,
    /// How many words at the front of the rule slice are the rules; 0 for a refusal.
    pub rules: usize,
    /// How many statements there are; 0 for a refusal.
    pub statements: usize,
    /// How many words at the front of the statement slice are the statements; 0 for a refusal.
    pub words: usize,
}

/// What writing a package answers.
#[repr(C)]
#[derive(Clone, Copy, Debug, PartialEq, Eq, Hash)]
pub struct Written {
    /// 0, or the number of the refusal.
    pub number: u32,
    /// Always 0.
    pub place: usize,
    /// How many bytes at the front of the slice are the package; 0 for a refusal.
    pub length: usize,
}

mod c {
    use super::{Answer, Batch, Built, Read, Stretch, Written};

    extern "C" {
        pub fn jiehkavon_body(provable: u32, logic: u32, rules: *const u32, rules_length: usize, rule: u32) -> Stretch;
        pub fn jiehkavon_build(
            provable: u32,
            logic: u32,
            rules: *const u32,
            rules_length: usize,
            commands: *const u32,
            commands_length: usize,
            nodes: *mut u32,
            nodes_length: usize,
            edges: *mut u32,
            edges_length: usize,
            frames: *mut u32,
            frames_length: usize,
        ) -> Built;
        pub fn jiehkavon_parse(
            provable: u32,
            logic: u32,
            rules: *const u32,
            rules_length: usize,
            nodes: *const u32,
            nodes_length: usize,
            edges: *const u32,
            edges_length: usize,
            tokens: *const u32,
            tokens_length: usize,
            allowance: u32,
            frames: *mut u32,
            frames_length: usize,
            list: *mut u32,
            list_length: usize,
            work: *mut u32,
            work_length: usize,
        ) -> Answer;
        pub fn jiehkavon_parse_many(
            provable: u32,
            logic: u32,
            rules: *const u32,
            rules_length: usize,
            nodes: *const u32,
            nodes_length: usize,
            edges: *const u32,
            edges_length: usize,
            statements: *const u32,
            statements_length: usize,
            allowance: u32,
            frames: *mut u32,
            frames_length: usize,
            list: *mut u32,
            list_length: usize,
            work: *mut u32,
            work_length: usize,
            answers: *mut u32,
            answers_length: usize,
            index: *mut u32,
            index_length: usize,
        ) -> Batch;
        pub fn jiehkavon_verify(
            provable: u32,
            logic: u32,
            rules: *const u32,
            rules_length: usize,
            tokens: *const u32,
            tokens_length: usize,
            list: *const u32,
            list_length: usize,
            work: *mut u32,
            work_length: usize,
        ) -> Answer;
        pub fn jiehkavon_package_read(
            bytes: *const u8,
            bytes_length: usize,
            rules: *mut u32,
            rules_length: usize,
            statements: *mut u32,
            statements_length: usize,
        ) -> Read;
        pub fn jiehkavon_package_write(
            provable: u32,
            logic: u32,
            rules: *const u32,
            rules_length: usize,
            statements: *const u32,
            statements_length: usize,
            bytes: *mut u8,
            bytes_length: usize,
        ) -> Written;
    }
}

/// The body of rule `rule`, as a stretch of `rules`.
pub fn body(provable: u32, logic: u32, rules: &[u32], rule: u32) -> Stretch {
    // SAFETY: the slice is there for the call, and nobody writes it.
    unsafe { c::jiehkavon_body(provable, logic, rules.as_ptr(), rules.len(), rule) }
}

/// The tree of the rules and of the commands that are run after them, in two slices of any length and content.
///
/// The commands are run in the order given. The word 2 asks for the type conversions. A garden path is the word 1, the number of items of its
/// prefix, that of its shadow, and the items of both, two words each, which are a rule's without the variable. Where no command asks for the
/// conversions, they come last.
///
/// A garden path may need frames, of [`FRAME_WIDTH`](crate::limits::FRAME_WIDTH) words each, and
/// [`MOST_CLONES`](crate::limits::MOST_CLONES) are always enough; no other command needs any. They are zero afterwards.
pub fn build(
    provable: u32,
    logic: u32,
    rules: &[u32],
    commands: &[u32],
    nodes: &mut [u32],
    edges: &mut [u32],
    frames: &mut [u32],
) -> Built {
    // SAFETY: the slices are there for the call, and the three lent for writing are apart from each other and from all that is read.
    unsafe {
        c::jiehkavon_build(
            provable,
            logic,
            rules.as_ptr(),
            rules.len(),
            commands.as_ptr(),
            commands.len(),
            nodes.as_mut_ptr(),
            nodes.len(),
            edges.as_mut_ptr(),
            edges.len(),
            frames.as_mut_ptr(),
            frames.len(),
        )
    }
}

/// The statement's list of rules, in postfix order, at the front of `list`; or a refusal.
#[allow(clippy::too_many_arguments)]
pub fn parse(
    provable: u32,
    logic: u32,
    rules: &[u32],
    nodes: &[u32],
    edges: &[u32],
    tokens: &[u32],
    allowance: u32,
    frames: &mut [u32],
    list: &mut [u32],
    work: &mut [u32],
) -> Answer {
    // SAFETY: the slices are there for the call, and those lent for writing are apart from each other and from all that is read.
    unsafe {
        c::jiehkavon_parse(
            provable,
            logic,
            rules.as_ptr(),
            rules.len(),
            nodes.as_ptr(),
            nodes.len(),
            edges.as_ptr(),
            edges.len(),
            tokens.as_ptr(),
            tokens.len(),
            allowance,
            frames.as_mut_ptr(),
            frames.len(),
            list.as_mut_ptr(),
            list.len(),
            work.as_mut_ptr(),
            work.len(),
        )
    }
}

/// The lists of many statements, one after another at the front of `list`, and an answer for each at the front of `answers`; or a refusal of
/// them all.
///
/// `statements` has for each the number of its tokens, then its tokens. Rules and tables are checked once. Each statement is answered as [`parse`]
/// answers it with the same allowance, the whole of `frames` and `work`, and the part of `list` that the lists before it have left free. An answer is
/// [`ANSWER_WIDTH`](crate::limits::ANSWER_WIDTH) words, the fields of an [`Answer`] in their order. A refused statement takes no list words and doesn't
/// stop the others.
///
/// The batch is refused with 10, then 8, then 22 where the words end within a statement, then 7 where `answers` has fewer than four words for each
/// statement, or `index` fewer than one for each rule, one for each node, and one more. A refused one leaves zeros in all five slices. One that is not
/// leaves zeros after the lists and after the answers, and in the other three.
///
/// What `index` has beyond that changes no answer. It serves as a table of the constants that leave node 0, the first word for constant 0, and makes
/// the call faster: it is of use up to the greatest of them.
#[allow(clippy::too_many_arguments)]
pub fn parse_many(
    provable: u32,
    logic: u32,
    rules: &[u32],
    nodes: &[u32],
    edges: &[u32],
    statements: &[u32],
    allowance: u32,
    frames: &mut [u32],
    list: &mut [u32],
    work: &mut [u32],
    answers: &mut [u32],
    index: &mut [u32],
) -> Batch {
    // SAFETY: the slices are there for the call, and those lent for writing are apart from each other and from all that is read.
    unsafe {
        c::jiehkavon_parse_many(
            provable,
            logic,
            rules.as_ptr(),
            rules.len(),
            nodes.as_ptr(),
            nodes.len(),
            edges.as_ptr(),
            edges.len(),
            statements.as_ptr(),
            statements.len(),
            allowance,
            frames.as_mut_ptr(),
            frames.len(),
            list.as_mut_ptr(),
            list.len(),
            work.as_mut_ptr(),
            work.len(),
            answers.as_mut_ptr(),
            answers.len(),
            index.as_mut_ptr(),
            index.len(),
        )
    }
}

/// The check alone: whether `list` is a well typed tree of the stated typecode that spells `tokens`.
pub fn verify(provable: u32, logic: u32, rules: &[u32], tokens: &[u32], list: &[u32], work: &mut [u32]) -> Answer {
    // SAFETY: the slices are there for the call, and the one lent for writing is apart from all that is read.
    unsafe {
        c::jiehkavon_verify(
            provable,
            logic,
            rules.as_ptr(),
            rules.len(),
            tokens.as_ptr(),
            tokens.len(),
            list.as_ptr(),
            list.len(),
            work.as_mut_ptr(),
            work.len(),
        )
    }
}

/// The rules of a package at the front of `rules`, its statements at the front of `statements`, for each the number of its tokens and then its
/// tokens; or a refusal.
pub fn package_read(bytes: &[u8], rules: &mut [u32], statements: &mut [u32]) -> Read {
    // SAFETY: the slices are there for the call, and the two lent for writing are apart from each other and from the bytes.
    unsafe {
        c::jiehkavon_package_read(
            bytes.as_ptr(),
            bytes.len(),
            rules.as_mut_ptr(),
            rules.len(),
            statements.as_mut_ptr(),
            statements.len(),
        )
    }
}

/// The package of rules and statements at the front of `bytes`; or a refusal.
pub fn package_write(provable: u32, logic: u32, rules: &[u32], statements: &[u32], bytes: &mut [u8]) -> Written {
    // SAFETY: the slices are there for the call, and the one lent for writing is apart from all that is read.
    unsafe {
        c::jiehkavon_package_write(
            provable,
            logic,
            rules.as_ptr(),
            rules.len(),
            statements.as_ptr(),
            statements.len(),
            bytes.as_mut_ptr(),
            bytes.len(),
        )
    }
}
