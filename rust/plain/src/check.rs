//! The check: what a list has to be.

use crate::numbers::{Refusal, Symbol, TOKEN_LIMIT};
use crate::rules::{Item, Rules};

/// Whether the list is one well typed tree with the wanted result that spells the tokens.
///
/// Both are read from their ends: there a list has its root, so that at every moment it is known which items still have to be spelled, and
/// each entry of the list fills the last slot among them. Each entry is looked at once.
pub fn check(rules: &Rules, wanted: Option<Symbol>, spelled: &[u32], list: &[u32]) -> bool {
    let Some(wanted) = wanted else { return false };
    let mut tokens = spelled.iter().rev();
    let mut entries = list.iter().rev();
    let mut items = vec![Item::Slot(wanted)];
    while let Some(item) = items.pop() {
        let met = match item {
            Item::Constant(symbol) => tokens.next() == Some(&symbol.word()),
            Item::Slot(typecode) => entries.next().is_some_and(|&entry| fill(rules, typecode, entry, &mut items)),
        };
        if !met {
            return false;
        }
    }
    tokens.next().is_none() && entries.next().is_none()
}

/// Puts the entry's body where the slot was, if the entry names a rule with the slot's typecode.
fn fill(rules: &Rules, typecode: Symbol, entry: u32, items: &mut Vec<Item>) -> bool {
    match rules.named(entry).map(|rule| rules.rule(rule)) {
        Some(rule) if rule.result == typecode => {
            items.extend_from_slice(&rule.body);
            true
        }
        _ => false,
    }
}

/// 1 or 9.
pub fn count_tokens(tokens: &[u32]) -> Result<(), Refusal> {
    match tokens.len() {
        0 | 1 => Err(Refusal::TooFewTokens),
        count if count > TOKEN_LIMIT => Err(Refusal::TooManyTokens),
        _ => Ok(()),
    }
}

/// The check alone, with room for `room` entries.
pub fn verify(rules: &Rules, tokens: &[u32], list: &[u32], room: usize) -> Result<(), Refusal> {
    count_tokens(tokens)?;
    if room < list.len() {
        return Err(Refusal::ListFull);
    }
    let wanted = rules.typecodes.wanted(tokens[0]);
    check(rules, wanted, &tokens[1..], list).then_some(()).ok_or(Refusal::NoTree)
}
