//! A parser that is kept allocates nothing once its buffers have grown. The count is each thread's own, since tests share a process.

use std::alloc::{GlobalAlloc, Layout, System};
use std::cell::Cell;

use jiehkavon::{Grammar, Label, Parser, Rules, Statement, Symbol};

struct Counting;

thread_local! {
    static ALLOCATIONS: Cell<usize> = const { Cell::new(0) };
}

// SAFETY: every call goes on to the system's allocator as it is; `realloc` and `alloc_zeroed` come here by the trait's own definitions.
unsafe impl GlobalAlloc for Counting {
    unsafe fn alloc(&self, layout: Layout) -> *mut u8 {
        // a thread that is ending has no count any more
        let _ = ALLOCATIONS.try_with(|count| count.set(count.get() + 1));
        System.alloc(layout)
    }

    unsafe fn dealloc(&self, at: *mut u8, layout: Layout) {
        System.dealloc(at, layout)
    }
}

#[global_allocator]
static COUNTING: Counting = Counting;

/// What `work` allocates.
fn allocations(work: impl FnOnce()) -> usize {
    let before = ALLOCATIONS.with(Cell::get);
    work();
    ALLOCATIONS.with(Cell::get) - before
}

fn symbol(word: u32) -> Symbol {
    Symbol::new(word).expect("a symbol")
}

/// One variable c10, and c14 before a formula.
fn grammar() -> Grammar {
    let mut rules = Rules::new(symbol(1), symbol(2));
    rules.push_numbered(symbol(2), &[Label::Constant(symbol(10))]);
    rules.push_numbered(symbol(2), &[Label::Constant(symbol(14)), Label::Slot(symbol(2))]);
    Grammar::build(rules).expect("a tree")
}

/// `count` times c14, then c10.
fn fill(statement: &mut Statement, count: usize) {
    statement.clear();
    statement.push(symbol(1));
    statement.extend(std::iter::repeat(symbol(14)).take(count));
    statement.push(symbol(10));
}

/// A parse that has to give `count` entries and one.
fn run(parser: &mut Parser, grammar: &Grammar, statement: &Statement, count: usize) {
    let formula = parser.parse(grammar, statement).expect("a formula").formula;
    assert_eq!(formula.len(), count + 1);
}

#[test]
fn a_parser_that_has_grown_allocates_nothing() {
    let grammar = grammar();
    let (mut parser, mut statement) = (Parser::new(), Statement::default());
    fill(&mut statement, 50);
    assert!(allocations(|| run(&mut parser, &grammar, &statement, 50)) > 0);
    let again = allocations(|| {
        for count in [50, 3, 20, 0, 50] {
            fill(&mut statement, count);
            run(&mut parser, &grammar, &statement, count);
        }
    });
    assert_eq!(again, 0);
}

/// Every answer by batches.
fn run_many(parser: &mut Parser, grammar: &Grammar, statements: &[Statement]) {
    let mut answers = parser.parse_many(grammar, statements);
    for statement in statements {
        let answer = answers.next_parsed().expect("an answer").expect("a formula");
        assert_eq!(answer.formula.len(), statement.words().len() - 1);
    }
    assert!(answers.next_parsed().is_none());
}

#[test]
fn a_batch_allocates_nothing_once_its_buffers_have_grown() {
    let grammar = grammar();
    let mut statements = vec![Statement::default(); 100];
    statements
        .iter_mut()
        .enumerate()
        .for_each(|(count, statement)| fill(statement, count));
    let mut parser = Parser::new();
    assert!(allocations(|| run_many(&mut parser, &grammar, &statements)) > 0);
    assert_eq!(allocations(|| run_many(&mut parser, &grammar, &statements)), 0);
    assert_eq!(allocations(|| run_many(&mut parser, &grammar, &statements[20..60])), 0);
}

#[test]
fn a_check_with_a_kept_parser_allocates_nothing() {
    let grammar = grammar();
    let (mut parser, mut statement) = (Parser::new(), Statement::default());
    fill(&mut statement, 50);
    let formula = grammar.parse(&statement).expect("a formula");
    assert_eq!(allocations(|| assert_eq!(parser.verify(&grammar, &statement, &formula), Ok(()))), 1);
    assert_eq!(allocations(|| assert_eq!(parser.verify(&grammar, &statement, &formula), Ok(()))), 0);
}

#[test]
fn a_statement_that_is_too_long_gets_no_room() {
    let grammar = grammar();
    let (mut parser, mut statement) = (Parser::new(), Statement::default());
    fill(&mut statement, 100_000);
    assert_eq!(
        allocations(|| assert_eq!(parser.parse(&grammar, &statement).err().map(|refusal| refusal.number()), Some(9))),
        0
    );
}
