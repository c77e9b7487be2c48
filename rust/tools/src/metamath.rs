//! A reader of Metamath databases: what a grammar needs of one, as numbers.
//!
//! Proofs and distinct variables are passed over. A variable's `$f` becomes a rule with one constant, an `$a` of a typecode other than the
//! provable one a rule with constants and slots, each slot with the symbol of its variable; every other `$a`, and every `$e` and `$p`, is a statement.

use jiehkavon::{Grammar, GrammarBuilder, Label, NotASymbol, Package, Rules, Symbol, Variable};
use std::collections::HashMap;
use std::str::SplitAsciiWhitespace;

/// The typecodes where no `$j` comment names them.
const PROVABLE: &str = "|-";
const LOGIC: &str = "wff";

#[derive(Clone, Copy, Debug, PartialEq, Eq)]
pub enum Item {
    Constant(u32),
    /// A variable is its symbol.
    Slot {
        typecode: u32,
        variable: u32,
    },
}

impl Item {
    /// The item as the library's crate has it.
    fn typed(self) -> Result<jiehkavon::Item, NotASymbol> {
        Ok(match self {
            Item::Constant(s) => jiehkavon::Item::Constant(Symbol::try_from(s)?),
            Item::Slot { typecode, variable } => jiehkavon::Item::Slot {
                typecode: Symbol::try_from(typecode)?,
                variable: Variable(Symbol::try_from(variable)?),
            },
        })
    }

    fn pair(self) -> [u32; 2] {
        match self {
            Item::Constant(s) => [0, s],
            Item::Slot { typecode, .. } => [1, typecode],
        }
    }

    fn words(self) -> [u32; 3] {
        let [kind, symbol] = self.pair();
        match self {
            Item::Constant(_) => [kind, symbol, 0],
            Item::Slot { variable, .. } => [kind, symbol, variable],
        }
    }
}

#[derive(Clone, Debug)]
pub struct Rule {
    pub label: String,
    pub result: u32,
    pub body: Vec<Item>,
    /// It comes from a `$f`.
    pub float: bool,
}

#[derive(Clone, Debug)]
pub struct Statement {
    pub label: String,
    /// The typecode first.
    pub tokens: Vec<u32>,
}

#[derive(Clone, Debug, Default)]
pub struct Database {
    /// Symbol `n` is called `symbols[n - 1]`.
    pub symbols: Vec<String>,
    pub provable: u32,
    pub logic: u32,
    pub rules: Vec<Rule>,
    pub statements: Vec<Statement>,
    /// How many `$f` gave way to a later one of the same variable.
    pub repeated: usize,
    /// What is run after the rules, in order.
    pub commands: Vec<Command>,
}

impl Database {
    pub fn read(text: &str) -> Result<Database, String> {
        let mut reader = Reader::new(text);
        reader.run()?;
        let mut database = reader.database;
        if database.provable == 0 || database.logic == 0 {
            return Err("the provable or the logic typecode isn't declared".to_owned());
        }
        for command in asked(text) {
            let words: Vec<&str> = command.split_ascii_whitespace().map(|word| word.trim_matches('\'')).collect();
            if let Some("garden_path" | "type_conversions") = words.first().copied() {
                database.commands.push(database.command(&words)?);
            }
        }
        Ok(database)
    }

    /// Commands from a text of their own, for a database whose comments have none; one that has some keeps them. A line is `PREFIX => SHADOW` in the
    /// database's symbols, or `type_conversions`, or `rule TYPECODE SYMBOL...`: a rule of one's own behind those of the database, in which a name
    /// that isn't declared is a new constant, that no statement has. Empty lines, and those that begin with `#`, say nothing.
    pub fn add_commands(&mut self, text: &str) -> Result<(), String> {
        if !self.commands.is_empty() {
            return Ok(());
        }
        for line in text.lines() {
            let words: Vec<&str> = line.split_ascii_whitespace().collect();
            match words[..] {
                [] => {}
                [first, ..] if first.starts_with('#') => {}
                ["rule", result, ref body @ ..] => self.add_rule(result, body)?,
                ["type_conversions"] => self.commands.push(Command::TypeConversions),
                _ => {
                    let path = self.path(&words).ok_or_else(|| format!("no command: {line}"))??;
                    self.commands.push(path);
                }
            }
        }
        Ok(())
    }

    fn add_rule(&mut self, result: &str, body: &[&str]) -> Result<(), String> {
        for name in body {
            if !self.symbols.iter().any(|symbol| symbol == name) {
                self.symbols.push((*name).to_owned());
            }
        }
        let Item::Constant(result) = self.item(result)? else {
            return Err(format!("{result} is no typecode"));
        };
        let body = self.items(body)?;
        self.rules.push(Rule {
            label: "a rule of one's own".to_owned(),
            result,
            body,
            float: false,
        });
        Ok(())
    }

    /// The database in a file.
    pub fn read_file(path: &str) -> Result<Database, String> {
        let text = std::fs::read_to_string(path).map_err(|e| format!("{path}: {e}"))?;
        Database::read(&text).map_err(|e| format!("{path}: {e}"))
    }

    /// The database in a file under the file's own name, and once more without the rules that have an empty body, if it has any: those are
    /// refused here and vanish in the Rust.
    pub fn read_both(path: &str) -> Result<Vec<(String, Database)>, String> {
        let database = Database::read_file(path)?;
        let name = path.rsplit('/').next().unwrap_or(path);
        let mut without = database.clone();
        without.rules.retain(|r| !r.body.is_empty());
        let same = without.rules.len() == database.rules.len();
        let both = [(name.to_owned(), database), (format!("{name} without its empty rule"), without)];
        Ok(both.into_iter().take(if same { 1 } else { 2 }).collect())
    }

    /// The rules as the library's crate has them.
    pub fn rules(&self) -> Result<Rules, NotASymbol> {
        let mut rules = Rules::new(Symbol::try_from(self.provable)?, Symbol::try_from(self.logic)?);
        for rule in &self.rules {
            let body: Result<Vec<_>, NotASymbol> = rule.body.iter().map(|item| item.typed()).collect();
            rules.push(Symbol::try_from(rule.result)?, &body?);
        }
        Ok(rules)
    }

    /// The rules and the statements as a package. Labels and names stay behind.
    pub fn package(&self) -> Result<Package, NotASymbol> {
        let mut package = Package::new(self.rules()?);
        self.statements.iter().for_each(|statement| package.push(&statement.tokens));
        Ok(package)
    }

    /// The rules as the words of the paper's table.
    pub fn rule_words(&self) -> Vec<u32> {
        let mut words = Vec::new();
        for rule in &self.rules {
            words.extend([rule.result, rule.body.len() as u32]);
            words.extend(rule.body.iter().flat_map(|item| item.words()));
        }
        words
    }

    /// The same set for the line driver around the published Rust, up to and including its build. Conversions that no command asks for are run last
    /// here and not at all there, so they are asked for.
    pub fn lines(&self) -> String {
        let head = format!("set {} {}\n", self.provable, self.logic);
        let rules = self.rules.iter().map(|rule| match (rule.float, &rule.body[..]) {
            (true, [Item::Constant(s)]) => format!("float {} {s}\n", rule.result),
            (_, body) => format!("rule {} {}\n", rule.result, pairs(body)),
        });
        let asked = self.commands.contains(&Command::TypeConversions);
        let last = (!asked).then_some(&Command::TypeConversions);
        let commands = self.commands.iter().chain(last).map(|command| match command {
            Command::TypeConversions => "conv\n".to_owned(),
            Command::GardenPath(prefix, shadow) => format!("gp {} {}\n", pairs(prefix), pairs(shadow)),
        });
        head + &rules.chain(commands).collect::<String>() + "build\n"
    }

    /// A command as a `$j` comment has it.
    fn command(&self, words: &[&str]) -> Result<Command, String> {
        let none = || format!("no command: {}", words.join(" "));
        match words {
            ["type_conversions"] => Ok(Command::TypeConversions),
            ["garden_path", lists @ ..] => self.path(lists).ok_or_else(none)?,
            _ => Err(none()),
        }
    }

    /// The path of two lists; none if nothing stands between them.
    fn path(&self, words: &[&str]) -> Option<Result<Command, String>> {
        let at = words.iter().position(|w| *w == "=>")?;
        let lists = [&words[..at], &words[at + 1..]].map(|names| self.items(names));
        let [prefix, shadow] = lists;
        Some(prefix.and_then(|prefix| Ok(Command::GardenPath(prefix, shadow?))))
    }

    /// The commands as the words that the library is lent.
    pub fn command_words(&self) -> Vec<u32> {
        let command = |command: &Command| match command {
            Command::TypeConversions => vec![2],
            Command::GardenPath(prefix, shadow) => {
                let head = [1, prefix.len() as u32, shadow.len() as u32];
                head.into_iter()
                    .chain(prefix.iter().chain(shadow).flat_map(|item| item.pair()))
                    .collect()
            }
        };
        self.commands.iter().flat_map(command).collect()
    }

    /// The rules and commands, to be built by the library's crate.
    pub fn builder(&self) -> Result<GrammarBuilder, NotASymbol> {
        let label = |item: &Item| item.typed().map(jiehkavon::Item::label);
        let labels = |items: &[Item]| items.iter().map(label).collect::<Result<Vec<Label>, _>>();
        let mut builder = Grammar::builder(self.rules()?);
        for command in &self.commands {
            builder = match command {
                Command::TypeConversions => builder.type_conversions(),
                Command::GardenPath(prefix, shadow) => builder.garden_path(&labels(prefix)?, &labels(shadow)?),
            };
        }
        Ok(builder)
    }

    fn items(&self, names: &[&str]) -> Result<Vec<Item>, String> {
        names.iter().map(|name| self.item(name)).collect()
    }

    /// A variable, which is what has a `$f`, stands for a slot.
    fn item(&self, name: &str) -> Result<Item, String> {
        let at = self
            .symbols
            .iter()
            .position(|s| s == name)
            .ok_or_else(|| format!("{name} isn't declared"))?;
        let symbol = at as u32 + 1;
        let constant = Item::Constant(symbol);
        let float = self.rules.iter().find(|r| r.float && r.body == [constant]);
        Ok(float.map_or(constant, |r| Item::Slot {
            typecode: r.result,
            variable: symbol,
        }))
    }
}

/// What is run after the rules.
#[derive(Clone, Debug, PartialEq, Eq)]
pub enum Command {
    TypeConversions,
    GardenPath(Vec<Item>, Vec<Item>),
}

/// A length and that many pairs: the Rust makes variables of its own.
fn pairs(body: &[Item]) -> String {
    let pair = |item: &Item| {
        let [kind, symbol] = item.pair();
        format!(" {kind} {symbol}")
    };
    body.len().to_string() + &body.iter().map(pair).collect::<String>()
}

/// The words of a text outside its comments. A comment that isn't closed runs to the end.
struct Words<'a>(SplitAsciiWhitespace<'a>);

impl<'a> Iterator for Words<'a> {
    type Item = &'a str;

    fn next(&mut self) -> Option<&'a str> {
        let mut word = self.0.next()?;
        while word == "$(" {
            self.0.find(|w| *w == "$)")?;
            word = self.0.next()?;
        }
        Some(word)
    }
}

/// What the `$j` comments of a text ask for, in order.
fn asked(text: &str) -> Vec<String> {
    let comments = text.split("$(").skip(1).filter_map(|rest| rest.split("$)").next());
    let commands = comments.filter_map(|c| c.trim_start().strip_prefix("$j")).map(without_remarks);
    commands.flat_map(|c| c.split(';').map(str::to_owned).collect::<Vec<_>>()).collect()
}

/// What stands outside of `/*` and `*/`.
fn without_remarks(text: &str) -> String {
    let mut parts = text.split("/*");
    let first = parts.next().unwrap_or("").to_owned();
    parts.fold(first, |kept, part| kept + part.split_once("*/").map_or("", |(_, after)| after))
}

/// The provable and the logic typecode. A `$j` comment anywhere decides, so that it need not stand before the first rule.
fn typecodes(text: &str) -> (String, String) {
    let named = asked(text).iter().find_map(|command| syntax_as(command));
    named.unwrap_or((PROVABLE.to_owned(), LOGIC.to_owned()))
}

/// The two names in `syntax 'A' as 'B'`.
fn syntax_as(command: &str) -> Option<(String, String)> {
    let words: Vec<&str> = command.split_ascii_whitespace().collect();
    match words[..] {
        ["syntax", a, "as", b] => Some((a.trim_matches('\'').to_owned(), b.trim_matches('\'').to_owned())),
        _ => None,
    }
}

struct Reader<'a> {
    words: Words<'a>,
    typecodes: (String, String),
    numbers: HashMap<&'a str, u32>,
    /// For each symbol, whether it was declared a variable.
    variable: Vec<bool>,
    /// Variables and typecodes of the `$f` in force, and how many were in force where each open scope began.
    floats: Vec<(u32, u32)>,
    scopes: Vec<usize>,
    database: Database,
}

impl<'a> Reader<'a> {
    fn new(text: &'a str) -> Self {
        Reader {
            words: Words(text.split_ascii_whitespace()),
            typecodes: typecodes(text),
            numbers: HashMap::new(),
            variable: Vec::new(),
            floats: Vec::new(),
            scopes: Vec::new(),
            database: Database::default(),
        }
    }

    fn run(&mut self) -> Result<(), String> {
        let mut label = "";
        while let Some(word) = self.words.next() {
            match word {
                "$c" | "$v" => self.declare(word == "$v")?,
                "${" => self.scopes.push(self.floats.len()),
                "$}" => self.close()?,
                "$d" => drop(self.math()?),
                "$f" => self.float(label).map_err(|why| format!("{label}: {why}"))?,
                "$a" | "$e" | "$p" => self.assertion(label, word == "$a").map_err(|why| format!("{label}: {why}"))?,
                "$[" => return Err("another file is included, which isn't read here".to_owned()),
                _ => label = word,
            }
        }
        Ok(())
    }

    fn declare(&mut self, variable: bool) -> Result<(), String> {
        for name in self.math()? {
            if self.numbers.contains_key(name) {
                continue; // a variable of several scopes is one symbol
            }
            self.database.symbols.push(name.to_owned());
            self.variable.push(variable);
            let number = self.database.symbols.len() as u32;
            self.numbers.insert(name, number);
            self.name_typecode(name, number);
        }
        Ok(())
    }

    fn name_typecode(&mut self, name: &str, number: u32) {
        if name == self.typecodes.0 {
            self.database.provable = number;
        } else if name == self.typecodes.1 {
            self.database.logic = number;
        }
    }

    fn close(&mut self) -> Result<(), String> {
        let begun = self.scopes.pop().ok_or("a scope is closed that wasn't opened")?;
        self.floats.truncate(begun);
        Ok(())
    }

    /// The words up to the end of a statement, its proof left out.
    fn math(&mut self) -> Result<Vec<&'a str>, String> {
        let mut math = Vec::new();
        for word in self.words.by_ref() {
            match word {
                "$." => return Ok(math),
                "$=" => break,
                _ => math.push(word),
            }
        }
        self.words.find(|w| *w == "$.").ok_or("the text ends within a statement")?;
        Ok(math)
    }

    fn symbols(&mut self) -> Result<Vec<u32>, String> {
        let math = self.math()?;
        let number = |name: &str| self.numbers.get(name).copied().ok_or_else(|| format!("{name} isn't declared"));
        math.into_iter().map(number).collect()
    }

    /// A variable has one rule, where its last `$f` stands, as the published Rust has it: there a later leaf takes the earlier one's place.
    fn float(&mut self, label: &str) -> Result<(), String> {
        let [result, variable] = self.symbols()?[..] else {
            return Err("a $f has a typecode and a variable".to_owned());
        };
        let body = vec![Item::Constant(variable)];
        let before = self.database.rules.len();
        if self.database.rules.iter().any(|r| r.float && r.body == body && r.result != result) {
            return Err("the variable has another typecode in another scope".to_owned());
        }
        self.database.rules.retain(|r| !r.float || r.body != body);
        self.database.repeated += before - self.database.rules.len();
        self.database.rules.push(Rule {
            label: label.to_owned(),
            result,
            body,
            float: true,
        });
        self.floats.push((variable, result));
        Ok(())
    }

    fn assertion(&mut self, label: &str, axiom: bool) -> Result<(), String> {
        let tokens = self.symbols()?;
        let label = label.to_owned();
        match tokens.split_first() {
            None => Err("a statement has a typecode".to_owned()),
            Some((&result, rest)) if axiom && result != self.database.provable => {
                let body = rest.iter().map(|&s| self.item(s)).collect::<Result<_, String>>()?;
                self.database.rules.push(Rule {
                    label,
                    result,
                    body,
                    float: false,
                });
                Ok(())
            }
            Some(_) => {
                self.database.statements.push(Statement { label, tokens });
                Ok(())
            }
        }
    }

    /// What a symbol is in a rule's body: a variable leaves a slot of its typecode.
    fn item(&self, symbol: u32) -> Result<Item, String> {
        if !self.variable[symbol as usize - 1] {
            return Ok(Item::Constant(symbol));
        }
        let float = self.floats.iter().rev().find(|(variable, _)| *variable == symbol);
        let (_, typecode) = float.ok_or_else(|| format!("no $f is in force for {}", self.database.symbols[symbol as usize - 1]))?;
        Ok(Item::Slot {
            typecode: *typecode,
            variable: symbol,
        })
    }
}

#[cfg(test)]
mod tests {
    use super::*;

    const TEXT: &str = "$( $j syntax 'form'; syntax 'holds' as 'form'; $) $c holds form thing ( = ) set $. $v p $. fp $f form p $.
        ${ $v x $. tx $f set x $. $( x $. $) cv $a thing x $. $}
        $v x y $. vx $f set x $. vy $f set y $. ${ $v A B $. tA $f thing A $. tB $f thing B $. eq $a form ( A = B ) $. $}
        ${ e $e holds p $. th $p holds ( x = y ) $= ? $. $} sy $p form ( x = x ) $= eq $. ax $a holds p $.";

    fn read() -> Database {
        Database::read(TEXT).expect("it is a database")
    }

    fn names(labels: impl Iterator<Item = String>) -> String {
        labels.collect::<Vec<_>>().join(" ")
    }

    #[test]
    fn rules_come_in_order_of_appearance_a_variable_where_its_last_float_is() {
        let d = read();
        assert_eq!(names(d.rules.iter().map(|r| r.label.clone())), "fp cv vx vy tA tB eq");
        assert_eq!(d.repeated, 1);
        assert_eq!(names(d.symbols.iter().cloned()), "holds form thing ( = ) set p x y A B");
        let rules: [&[u32]; 7] = [
            &[2, 1, 0, 8, 0],
            &[3, 1, 1, 7, 9],
            &[7, 1, 0, 9, 0],
            &[7, 1, 0, 10, 0],
            &[3, 1, 0, 11, 0],
            &[3, 1, 0, 12, 0],
            &[2, 5, 0, 4, 0, 1, 3, 11, 0, 5, 0, 1, 3, 12, 0, 6, 0],
        ];
        assert_eq!(d.rule_words(), rules.concat());
    }

    #[test]
    fn one_variable_twice_makes_a_bad_rule() {
        let number = |body: &str| {
            let d = Database::read(&format!(
                "$c |- wff ( $. $v p q $. fp $f wff p $. fq $f wff q $. r $a wff {body} $."
            ))
            .expect("it is a database");
            plain::build(d.provable, d.logic, &d.rule_words(), &[], &mut [0; 9], &mut [0; 160], &mut []).number
        };
        assert_eq!(["( p q", "( p p", "( p q p"].map(number), [0, 10, 10]);
    }

    #[test]
    fn statements_are_what_is_no_rule() {
        let d = read();
        assert_eq!((d.provable, d.logic), (1, 2));
        assert_eq!(names(d.statements.iter().map(|s| s.label.clone())), "e th sy ax");
        assert_eq!(d.statements[1].tokens, [1, 4, 9, 5, 10, 6]);
        assert_eq!(d.statements[2].tokens, [2, 4, 9, 5, 9, 6]);
    }

    #[test]
    fn a_package_has_the_same_rules_and_statements() {
        let d = read();
        let package = d.package().expect("its symbols are few");
        assert_eq!((package.rules().provable().word(), package.rules().logic().word()), (1, 2));
        assert_eq!(package.rules().words(), d.rule_words());
        assert!(package.statements().eq(d.statements.iter().map(|s| &s.tokens[..])));
    }

    #[test]
    fn lines_say_the_same_set() {
        let rules = "set 1 2\nfloat 2 8\nrule 3 1 1 7\nfloat 7 9\nfloat 7 10\nfloat 3 11\nfloat 3 12\n\
            rule 2 5 0 4 1 3 0 5 1 3 0 6\n";
        let path = "gp 2 0 4 1 7 2 0 4 1 3\n";
        let with = |text: &str| {
            let mut d = read();
            d.add_commands(text).expect("they are commands");
            d.lines()
        };
        assert_eq!(with(""), format!("{rules}conv\nbuild\n"));
        assert_eq!(with("( x => ( A"), format!("{rules}{path}conv\nbuild\n"));
        assert_eq!(with("type_conversions\n( x => ( A"), format!("{rules}conv\n{path}build\n"));
    }

    #[test]
    fn commands_of_a_text_of_their_own() {
        let mut d = read();
        let before = (d.symbols.len(), d.rules.len());
        let text = "# ( y => ( p\n\n( x => ( A\ntype_conversions\nrule thing ( ( NEVER\n ( ( => ( A x\n";
        d.add_commands(text).expect("they are commands");
        assert_eq!(
            d.command_words(),
            [1, 2, 2, 0, 4, 1, 7, 0, 4, 1, 3, 2, 1, 2, 3, 0, 4, 0, 4, 0, 4, 1, 3, 1, 7]
        );
        assert_eq!((d.symbols.len(), d.rules.len()), (before.0 + 1, before.1 + 1));
        assert!(d.rule_words().ends_with(&[3, 3, 0, 4, 0, 0, 4, 0, 0, 13, 0]));
        let refused = |text: &str| read().add_commands(text).is_err();
        assert!(["( x", "( nothing => ( A", "type_conversions ;", "rule x (", "rule nothing ("]
            .iter()
            .all(|text| refused(text)));
    }

    #[test]
    fn commands_of_comments_come_first() {
        let asking =
            " $( $j garden_path ( x => ( A ; /* type_conversions; */ type_conversions; unknown ( ; $) $( $j garden_path '(' y => ( A; $)";
        let mut d = Database::read(&(TEXT.to_owned() + asking)).expect("it is a database");
        let words = d.command_words();
        assert_eq!(words, [1, 2, 2, 0, 4, 1, 7, 0, 4, 1, 3, 2, 1, 2, 2, 0, 4, 1, 7, 0, 4, 1, 3]);
        d.add_commands("( p => ( A").expect("they are passed over");
        assert_eq!(d.command_words(), words);
        assert!(Database::read(&(TEXT.to_owned() + " $( $j garden_path ( x ( A; $)")).is_err());
    }

    #[test]
    fn the_builder_has_the_same_commands() {
        let mut d = read();
        d.add_commands("( x => ( A\ntype_conversions").expect("they are commands");
        let builder = d.builder().expect("its symbols are few");
        assert_eq!((builder.rules().words(), builder.commands().len()), (&d.rule_words()[..], 2));
    }

    #[test]
    fn what_cannot_be_said_is_refused() {
        let why = |text: &str| Database::read(text).map(|d| d.rules.len());
        assert_eq!(why("$c |- wff $. $v p $. f $f wff p $."), Ok(1));
        for text in [
            "$c |- $.",
            "$c |- wff $. a $a wff p $.",
            "$c |- wff $. $[ x.mm $]",
            "$c |- wff $. a $a wff",
            "$c |- wff $. $}",
            "$c |- wff $. $v p $. a $a wff p $.",
            "$c |- wff set $. ${ $v p $. f $f wff p $. $} $v p $. g $f set p $.",
        ] {
            assert!(why(text).is_err(), "{text}");
        }
    }
}
