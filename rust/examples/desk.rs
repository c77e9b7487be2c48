//! A small desk: rules for interlocks, statements as text, their trees. Run it with `rust/cargo run --example desk`.

use std::collections::HashMap;
use std::error::Error;

use jiehkavon::{Grammar, Label, ParseError, Parser, RuleNo, Rules, Statement, Subtree, Symbol};

/// Gives each name a symbol of its own, in the order in which they come up.
#[derive(Default)]
struct Names {
    symbols: HashMap<String, Symbol>,
}

impl Names {
    fn symbol(&mut self, name: &str) -> Result<Symbol, Box<dyn Error>> {
        if let Some(&symbol) = self.symbols.get(name) {
            return Ok(symbol);
        }
        let symbol = Symbol::try_from(u32::try_from(self.symbols.len() + 1)?)?;
        self.symbols.insert(name.to_string(), symbol);
        Ok(symbol)
    }

    /// Words in angle brackets are slots.
    fn label(&mut self, word: &str) -> Result<Label, Box<dyn Error>> {
        match word.strip_prefix('<').and_then(|word| word.strip_suffix('>')) {
            Some(typecode) => Ok(Label::Slot(self.symbol(typecode)?)),
            None => Ok(Label::Constant(self.symbol(word)?)),
        }
    }

    /// The first word is the typecode.
    fn statement(&mut self, text: &str) -> Result<Statement, Box<dyn Error>> {
        text.split_whitespace().map(|word| self.symbol(word)).collect()
    }
}

type Titles = HashMap<RuleNo, &'static str>;

/// Each rule has a title, a result and a body. No slot names a variable: each is one of its own.
const RULES: [(&str, &str, &str); 8] = [
    ("level low", "wff", "low"),
    ("level high", "wff", "high"),
    ("pump", "pump", "standby"),
    ("tank", "thing", "main"),
    ("a pump is a thing", "thing", "<pump>"),
    ("full", "wff", "<thing> is-full"),
    ("not", "wff", "not <wff>"),
    ("implies", "wff", "( <wff> -> <wff> )"),
];

/// The grammar, and what its rules are called.
fn grammar(names: &mut Names) -> Result<(Grammar, Titles), Box<dyn Error>> {
    let mut rules = Rules::new(names.symbol("|-")?, names.symbol("wff")?);
    let mut titles = Titles::new();
    for (title, result, body) in RULES {
        let labels: Result<Vec<Label>, _> = body.split_whitespace().map(|word| names.label(word)).collect();
        titles.insert(rules.push_numbered(names.symbol(result)?, &labels?), title);
    }
    Ok((Grammar::build(rules)?, titles))
}

/// How far down a tree is shown.
const SHOWN: usize = 6;

/// Each entry, and under it what fills its slots. A list may be deeper than the machine's stack, so nothing here calls itself.
fn show(root: Subtree<'_>, titles: &Titles) {
    let mut deeper = 0;
    for (depth, part) in root.preorder() {
        if depth < SHOWN {
            let (indent, rule) = (4 + 2 * depth, part.rule());
            println!("{:indent$}rule {rule}: {}", "", titles[&rule]);
        } else {
            deeper += 1;
        }
    }
    if deeper > 0 {
        println!("    and {deeper} entries further down");
    }
}

/// The text, or its first words if there are many.
fn shortened(text: &str) -> String {
    let words: Vec<&str> = text.split_whitespace().collect();
    match words.get(..12) {
        Some(front) => format!("{} ... ({} words)", front.join(" "), words.len()),
        None => words.join(" "),
    }
}

fn main() -> Result<(), Box<dyn Error>> {
    let mut names = Names::default();
    let (grammar, titles) = grammar(&mut names)?;
    println!(
        "{} rules, {} nodes, {} edges",
        grammar.rules().len(),
        grammar.tables().node_words().len(),
        grammar.tables().edges().count()
    );
    let mut parser = Parser::new();
    let deep = format!("|- {}low", "not ".repeat(4_000));
    for text in [
        "|- ( low -> standby is-full )",
        "|- ( low -> high",
        "|- low low",
        "|- ( low -> flood )",
        &deep,
    ] {
        println!("{}", shortened(text));
        let statement = names.statement(text)?;
        match parser.parse(&grammar, &statement) {
            Ok(parsed) => {
                println!("  list {} after {} passes", shortened(&parsed.formula.to_string()), parsed.passes);
                show(parsed.formula.tree(grammar.rules()).ok_or("no tree")?.root(), &titles);
            }
            Err(refusal @ (ParseError::Unparseable { place, .. } | ParseError::Unfinished { place, .. })) => {
                println!("  {refusal}: {}", text.split_whitespace().nth(place).unwrap_or("?"));
            }
            Err(refusal) => println!("  {refusal}"),
        }
    }
    Ok(())
}
