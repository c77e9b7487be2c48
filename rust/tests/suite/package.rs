//! Packages: what their bytes say, every refusal with its record, and both round trips.

use jiehkavon::words::{self, Read, Written};
use jiehkavon::{Grammar, Label, Package, Parser, ReadError, Rules, WriteError};

use crate::sets::{c, grammar, rules, s, set_s, set_s10, symbol, Random, TEN_PASSES};

/// The record of typecodes 1 and 2.
const H: &str = "0a000000 0100 01000000 02000000";
/// The end record.
const E: &str = "02000000 0400";
/// The rule 2 [c10].
const RULE: &str = "16000000 0200 02000000 01000000 00000000 0a000000 00000000";
/// The same in the old form.
const OLD_RULE: &str = "12000000 0500 02000000 01000000 00000000 0a000000";
/// The statement 1 10.
const STATEMENT: &str = "0a000000 0300 01000000 0a000000";

/// The bytes of hexadecimal digits.
fn hex(parts: &[&str]) -> Vec<u8> {
    let digits: String = parts.concat().split_whitespace().collect();
    let byte = |at: usize| u8::from_str_radix(&digits[at..at + 2], 16).expect("two digits");
    (0..digits.len()).step_by(2).map(byte).collect()
}

const REFUSED: Read = Read {
    number: 0,
    place: 0,
    provable: 0,
    logic: 0,
    rules: 0,
    statements: 0,
    words: 0,
};

/// A read into slices of garbage; gives back the answer and what they hold afterwards.
fn read_into(bytes: &[u8], rules: usize, statements: usize) -> (Read, Vec<u32>, Vec<u32>) {
    let (mut rules, mut statements) = (vec![77; rules], vec![88; statements]);
    let read = words::package_read(bytes, &mut rules, &mut statements);
    (read, rules, statements)
}

/// A read that has to be refused so, with zeros in slices that are long enough for anything.
fn refuses(parts: &[&str], number: u32, place: usize) {
    let bytes = hex(parts);
    let answer = Read { number, place, ..REFUSED };
    let zeros = || vec![0; bytes.len()];
    assert_eq!(read_into(&bytes, bytes.len(), bytes.len()), (answer, zeros(), zeros()), "{parts:?}");
    assert_eq!(Package::read(&bytes).err(), ReadError::of(answer), "{parts:?}");
}

#[test]
fn what_a_package_says() {
    let read = |parts: &[&str]| read_into(&hex(parts), 6, 4);
    let answer = |rules, statements, words| Read {
        provable: 1,
        logic: 2,
        rules,
        statements,
        words,
        ..REFUSED
    };
    assert_eq!(read(&[H, E]), (answer(0, 0, 0), vec![0; 6], vec![0; 4]));
    assert_eq!(read(&[H, STATEMENT, E]), (answer(0, 1, 3), vec![0; 6], vec![2, 1, 10, 0]));
    // a statement of no tokens, and two of them
    let none = "02000000 0300";
    assert_eq!(read(&[H, none, E]), (answer(0, 1, 1), vec![0; 6], vec![0; 4]));
    assert_eq!(read(&[H, none, STATEMENT, E]), (answer(0, 2, 4), vec![0; 6], vec![0, 2, 1, 10]));
    assert_eq!(
        read(&[H, RULE, STATEMENT, E]),
        (answer(5, 1, 3), vec![2, 1, 0, 10, 0, 0], vec![2, 1, 10, 0])
    );
    assert_eq!(read(&[H, OLD_RULE, STATEMENT, E]), read(&[H, RULE, STATEMENT, E]));
    // tokens are any words
    let wild = "0a000000 0300 00000000 ffffffff";
    assert_eq!(read(&[H, wild, E]), (answer(0, 1, 3), vec![0; 6], vec![2, 0, u32::MAX, 0]));
}

#[test]
fn no_byte_before_the_end_record_or_one_after_it() {
    refuses(&[], 23, 0);
    refuses(&[H], 23, 1);
    refuses(&[H, RULE, STATEMENT], 23, 3);
    for after in ["00", "01000000", E, H, "02000000 0900", "03000000 0400 00", "ffffffff"] {
        refuses(&[H, E, after], 23, 2);
    }
    refuses(&[H, RULE, E, "00"], 23, 3);
}

#[test]
fn a_length_cut_short_or_under_2_or_past_the_file() {
    for cut in ["0a", "0a00", "0a0000", "0a000000", "0a000000 01", "0a000000 0100 01000000 020000"] {
        refuses(&[cut], 20, 0);
        refuses(&[H, cut], 20, 1);
    }
    for length in ["00000000 0400", "01000000 0400", "ffffffff 0400", "03000000 0400", "02000080 0400"] {
        refuses(&[H, RULE, length], 20, 2);
    }
    // it comes before the kind, the size and the order
    refuses(&["01000000 0900"], 20, 0);
    refuses(&["ffffffff 0900 000000000000000000000000"], 20, 0);
}

#[test]
fn a_kind_that_there_is_not() {
    for kind in ["0000", "0600", "0401", "0501", "0001", "0101", "ffff"] {
        refuses(&["02000000", kind], 21, 0);
        refuses(&[H, "02000000", kind, E], 21, 1);
        // it comes before the size
        refuses(&[H, "03000000", kind, "00", E], 21, 1);
    }
}

#[test]
fn a_body_of_the_wrong_size() {
    // the typecodes
    refuses(&["02000000 0100", E], 22, 0);
    refuses(&["09000000 0100 01000000 020000", E], 22, 0);
    refuses(&["0e000000 0100 01000000 02000000 03000000", E], 22, 0);
    // a rule of either form: no length in it, one item too few, one too many, a byte too many
    for (kind, item) in [("0200", "00000000 0a000000 00000000"), ("0500", "00000000 0a000000")] {
        refuses(&[H, "02000000", kind, E], 22, 1);
        refuses(&[H, "06000000", kind, "02000000", E], 22, 1);
        refuses(&[H, "09000000", kind, "02000000 010000", E], 22, 1);
        refuses(&[H, "0a000000", kind, "02000000 01000000", E], 22, 1);
        let (length, longer) = if kind == "0200" {
            ("16000000", "17000000")
        } else {
            ("12000000", "13000000")
        };
        refuses(&[H, length, kind, "02000000 02000000", item, E], 22, 1);
        refuses(&[H, length, kind, "02000000 00000000", item, E], 22, 1);
        refuses(&[H, longer, kind, "02000000 01000000", item, "00", E], 22, 1);
    }
    // one form under the kind of the other
    refuses(&[H, "12000000 0200 02000000 01000000 00000000 0a000000", E], 22, 1);
    refuses(&[H, "16000000 0500 02000000 01000000 00000000 0a000000 00000000", E], 22, 1);
    // a statement that is not whole words, an end with a byte
    refuses(&[H, "03000000 0300 01", E], 22, 1);
    refuses(&[H, "09000000 0300 01000000 0a0000", E], 22, 1);
    refuses(&[H, RULE, STATEMENT, "03000000 0400 00"], 22, 3);
}

#[test]
fn sizes_do_not_wrap() {
    for length in ["01000020", "01000040", "01000080", "abaaaaaa", "56555555"] {
        refuses(&[H, "16000000 0200 02000000", length, "00000000 0a000000 00000000", E], 22, 1);
        refuses(&[H, "12000000 0500 02000000", length, "00000000 0a000000", E], 22, 1);
    }
    for length in ["00000020", "00000040", "00000080", "ffffffff", "000000c0", "55555555", "abaaaaaa"] {
        refuses(&[H, "0a000000 0200 02000000", length, E], 22, 1);
        refuses(&[H, "0a000000 0500 02000000", length, E], 22, 1);
    }
}

#[test]
fn a_wrong_order() {
    refuses(&[E], 23, 0);
    refuses(&[RULE, E], 23, 0);
    refuses(&[STATEMENT, E], 23, 0);
    refuses(&[H, H, E], 23, 1);
    refuses(&[H, RULE, H, E], 23, 2);
    refuses(&[H, STATEMENT, RULE, E], 23, 2);
    refuses(&[H, STATEMENT, OLD_RULE, E], 23, 2);
    refuses(&[OLD_RULE, E], 23, 0);
    refuses(&[H, RULE, STATEMENT, STATEMENT, RULE, E], 23, 4);
    // the size comes first
    refuses(&[H, "06000000 0100 01000000", E], 22, 1);
    refuses(&[H, STATEMENT, "0a000000 0200 02000000 01000000", E], 22, 2);
    refuses(&["03000000 0400 00"], 22, 0);
}

#[test]
fn bad_rules_in_a_package() {
    let body = |items: usize| "00000000 0a000000 00000000".repeat(items);
    let old_body = |items: usize| "00000000 0a000000".repeat(items);
    // no item is a size like any other, and then a bad rule; so are 33
    refuses(&[H, "0a000000 0200 02000000 00000000", E], 10, 0);
    refuses(&[H, "0a000000 0500 02000000 00000000", E], 10, 0);
    refuses(&[H, "96010000 0200 02000000 21000000", &body(33), E], 10, 0);
    refuses(&[H, "12010000 0500 02000000 21000000", &old_body(33), E], 10, 0);
    let good = hex(&[H, "8a010000 0200 02000000 20000000", &body(32), E]);
    let old = hex(&[H, "0a010000 0500 02000000 20000000", &old_body(32), E]);
    for bytes in [good, old] {
        assert_eq!(
            Package::read(&bytes).map(|package| package.rules().clone()),
            Ok(rules(&[(2, &[c(10); 32])]))
        );
    }
    // a result that is provable, a kind of item that is none, a conversion with equal ends
    refuses(&[H, "16000000 0200 01000000 01000000 00000000 0a000000 00000000", E], 10, 0);
    refuses(&[H, "16000000 0200 02000000 01000000 02000000 0a000000 00000000", E], 10, 0);
    refuses(&[H, RULE, "16000000 0200 02000000 01000000 01000000 02000000 01000000", E], 10, 0);
    refuses(&[H, "12000000 0500 02000000 01000000 02000000 0a000000", E], 10, 0);
    refuses(&[H, "12000000 0500 02000000 01000000 01000000 02000000", E], 10, 0);
    // a constant with a variable, a slot without one, one past the last, and one in two slots
    refuses(&[H, "16000000 0200 02000000 01000000 00000000 0a000000 01000000", E], 10, 0);
    refuses(&[H, "16000000 0200 02000000 01000000 01000000 03000000 00000000", E], 10, 0);
    refuses(&[H, "16000000 0200 02000000 01000000 01000000 03000000 00000100", E], 10, 0);
    let two = "22000000 0200 02000000 02000000 01000000 03000000 07000000 01000000 04000000";
    refuses(&[H, two, "07000000", E], 10, 0);
    assert!(Package::read(&hex(&[H, two, "08000000", E])).is_ok());
    // bad typecodes are bad rules
    for typecodes in ["01000000 01000000", "00000000 02000000", "01000000 00000000", "01000000 00000100"] {
        refuses(&["0a000000 0100", typecodes, E], 10, 0);
    }
    // what is wrong with a record comes before
    refuses(&["0a000000 0100 01000000 01000000"], 23, 1);
}

#[test]
fn slices_that_are_too_short() {
    let bytes = hex(&[H, RULE, STATEMENT, E]);
    let short = Read { number: 7, ..REFUSED };
    for (rules, statements, number) in [
        (5, 3, 0),
        (4, 3, 7),
        (5, 2, 7),
        (0, 3, 7),
        (5, 0, 7),
        (0, 0, 7),
        (9, 2, 7),
        (4, 9, 7),
    ] {
        let (read, lent_rules, lent_statements) = read_into(&bytes, rules, statements);
        assert_eq!(read.number, number, "{rules} {statements}");
        if number == 7 {
            assert_eq!((read, lent_rules, lent_statements), (short, vec![0; rules], vec![0; statements]));
        }
    }
    // before bad rules, and after everything that is wrong with a record
    let bad = hex(&["0a000000 0100 01000000 01000000", RULE, E]);
    assert_eq!(read_into(&bad, 4, 0), (short, vec![0; 4], vec![]));
    assert_eq!(read_into(&bad, 5, 0), (Read { number: 10, ..REFUSED }, vec![0; 5], vec![]));
    let cut = hex(&[H, RULE, STATEMENT]);
    assert_eq!(
        read_into(&cut, 0, 0).0,
        Read {
            number: 23,
            place: 3,
            ..REFUSED
        }
    );
    // the words of every rule, past the last that is allowed too
    let many = hex(&[H, &RULE.repeat(2_049), E]);
    assert_eq!(read_into(&many, 5 * 2_048, 0).0.number, 7);
    assert_eq!(read_into(&many, 5 * 2_049 - 1, 0).0.number, 7);
    assert_eq!(read_into(&many, 5 * 2_049, 0).0.number, 10);
    // a rule of the old form needs the words that it has in the new one
    let old = hex(&[H, OLD_RULE, E]);
    assert_eq!([4, 5].map(|words| read_into(&old, words, 0).0.number), [7, 0]);
}

#[test]
fn rules_of_the_old_form() {
    // c10 s2, and s3 c8 s3: slots are counted, and not items
    let counted = "1a000000 0500 02000000 02000000 00000000 0a000000 01000000 02000000";
    let twice = "22000000 0500 02000000 03000000 01000000 03000000 00000000 08000000 01000000 03000000";
    // the same rules, the second with variables of its own
    let named = "2e000000 0200 02000000 03000000 01000000 03000000 09000000 00000000 08000000 00000000 01000000 03000000 05000000";
    let of = |parts: &[&str]| Package::read(&hex(parts)).map(|package| package.rules().words().to_vec());
    assert_eq!(of(&[H, counted, E]), Ok(vec![2, 2, 0, 10, 0, 1, 2, 1]));
    let read = of(&[H, counted, twice, E]);
    assert_eq!(read, Ok(vec![2, 2, 0, 10, 0, 1, 2, 1, 2, 3, 1, 3, 1, 0, 8, 0, 1, 3, 2]));
    assert_eq!(
        of(&[H, counted, named, E]),
        Ok(vec![2, 2, 0, 10, 0, 1, 2, 1, 2, 3, 1, 3, 9, 0, 8, 0, 1, 3, 5])
    );
    // what is written has the new form, and reads the same
    let mixed = hex(&[H, named, counted, STATEMENT, E]);
    let package = Package::read(&mixed).expect("a package");
    let bytes = package.write().expect("bytes");
    assert_ne!(bytes, mixed);
    let new = "22000000 0200 02000000 02000000 00000000 0a000000 00000000 01000000 02000000 01000000";
    assert_eq!(bytes, hex(&[H, named, new, STATEMENT, E]));
    assert_eq!(Package::read(&bytes), Ok(package));
}

/// A write into garbage; gives back the answer and the bytes.
fn write_into(rules: &Rules, statements: &[u32], room: usize) -> (Written, Vec<u8>) {
    let mut bytes = vec![99; room];
    let (provable, logic) = (rules.provable().word(), rules.logic().word());
    let written = words::package_write(provable, logic, rules.words(), statements, &mut bytes);
    (written, bytes)
}

fn written(number: u32, length: usize) -> Written {
    Written { number, place: 0, length }
}

#[test]
fn what_is_written() {
    let one = rules(&[(2, &[c(10)])]);
    let bytes = hex(&[H, RULE, STATEMENT, "02000000 0300", E]);
    let length = bytes.len();
    for more in [0, 1, 20] {
        assert_eq!(
            write_into(&one, &[2, 1, 10, 0], length + more),
            (written(0, length), [&bytes[..], &vec![0; more]].concat())
        );
    }
    for room in 0..length {
        assert_eq!(write_into(&one, &[2, 1, 10, 0], room), (written(7, 0), vec![0; room]));
    }
    assert_eq!(write_into(&rules(&[]), &[], 20), (written(0, 20), hex(&[H, E])));
}

#[test]
fn what_is_not_written() {
    let good = rules(&[(2, &[c(10)])]);
    let bad = rules(&[(2, &[])]);
    // words that are not whole statements, and a count that no length can say
    let wrong: [&[u32]; 8] = [
        &[1],
        &[0, 1],
        &[2, 1, 10, 1],
        &[3, 1, 10],
        &[1 << 30],
        &[(1 << 30) - 1],
        &[u32::MAX],
        &[u32::MAX, 1, 10],
    ];
    for statements in wrong {
        for room in [0, 200] {
            assert_eq!(
                write_into(&good, statements, room),
                (written(22, 0), vec![0; room]),
                "{statements:?}"
            );
            assert_eq!(
                write_into(&bad, statements, room),
                (written(10, 0), vec![0; room]),
                "{statements:?}"
            );
        }
    }
    for room in [0, 200] {
        assert_eq!(write_into(&bad, &[], room), (written(10, 0), vec![0; room]));
    }
    assert_eq!(
        write_into(&Rules::new(symbol(2), symbol(2)), &[], 99),
        (written(10, 0), vec![0; 99])
    );
}

#[test]
fn refusals_of_the_safe_type() {
    let mut package = Package::new(rules(&[(2, &[])]));
    package.push(&[1, 10]);
    assert_eq!(package.write(), Err(WriteError::BadRules));
    assert_eq!(Package::read(&hex(&[H])), Err(ReadError::WrongOrder { record: 1 }));
    assert_eq!(
        Package::read(&hex(&[H, "02000000 0900"])),
        Err(ReadError::UnknownKind { record: 1 })
    );
    assert_eq!(Package::read(&hex(&[H, "00"])), Err(ReadError::BadLength { record: 1 }));
    assert_eq!(
        Package::read(&hex(&[H, "03000000 0300 00"])),
        Err(ReadError::WrongSize { record: 1 })
    );
}

#[test]
fn empty_slices() {
    assert_eq!(words::package_read(&[], &mut [], &mut []), Read { number: 23, ..REFUSED });
    let empty = words::package_read(&hex(&[H, E]), &mut [], &mut []);
    assert_eq!((empty.number, empty.provable, empty.logic), (0, 1, 2));
    assert_eq!(words::package_write(1, 2, &[], &[], &mut []), written(7, 0));
    assert_eq!(words::package_write(1, 1, &[], &[], &mut []), written(10, 0));
}

/// Set S with rows of the sheet.
fn set_s_package() -> Package {
    let mut package = Package::new(set_s());
    for tokens in [&TEN_PASSES[..], &[1, 13, 8, 12], &[], &[1], &[3, 13], &[1, 10, 10]] {
        package.push(tokens);
    }
    package
}

#[test]
fn statements_of_a_package_are_parsed() {
    let package = Package::read(&set_s_package().write().expect("bytes")).expect("a package");
    let grammar = grammar(package.rules().clone());
    let mut parser = Parser::new();
    let mut lists = Vec::new();
    for tokens in package.statements() {
        let parsed = parser.parse_words(&grammar, tokens);
        lists.push(parsed.map(|parsed| parsed.formula.to_string()).map_err(|refusal| refusal.number()));
    }
    let list = |list: &str| Ok(list.to_owned());
    assert_eq!(lists, [list("1 2 7"), list("4 5 3 8"), Err(1), Err(1), list("4 5"), Err(2)]);
}

#[test]
fn a_package_and_its_parts() {
    let package = set_s_package();
    assert_eq!((package.len(), package.is_empty()), (6, false));
    assert_eq!(package.statements().map(<[u32]>::len).collect::<Vec<_>>(), [6, 4, 0, 1, 2, 3]);
    assert_eq!(package.words()[..8], [6, 1, 5, 10, 7, 11, 6, 4]);
    assert_eq!(package.rules(), &set_s());
    let empty = Package::new(set_s());
    assert_eq!((empty.len(), empty.is_empty(), empty.statements().count()), (0, true, 0));
}

#[test]
fn a_package_cut_anywhere_is_refused_at_the_record_that_is_cut() {
    let bytes = set_s_package().write().expect("bytes");
    assert!(Package::read(&bytes).is_ok());
    let mut ends = Vec::new();
    let mut at = 0;
    while at < bytes.len() {
        at += 4 + usize::try_from(u32::from_le_bytes([bytes[at], bytes[at + 1], bytes[at + 2], bytes[at + 3]])).expect("it fits");
        ends.push(at);
    }
    assert_eq!((ends.len(), at), (1 + 9 + 6 + 1, bytes.len()));
    for length in 0..bytes.len() {
        let record = ends.iter().filter(|&&end| end <= length).count();
        let at_a_border = length == 0 || ends.contains(&length);
        let refusal = match at_a_border {
            true => ReadError::WrongOrder { record },
            false => ReadError::BadLength { record },
        };
        assert_eq!(Package::read(&bytes[..length]), Err(refusal), "{length}");
    }
}

/// Some rules that are good, and statements of any words.
fn random_package(random: &mut Random) -> Package {
    let mut set = rules(&[]);
    for _ in 0..random.below(6) {
        let result = symbol(random.pick(&[2, 4, 65_535]));
        let labels: Vec<Label> = (0..1 + random.below(32)).map(|_| [c(5), c(10), s(3)][random.below(3)]).collect();
        set.push_numbered(result, &labels);
    }
    let mut package = Package::new(set);
    for _ in 0..random.below(6) {
        let tokens: Vec<u32> = (0..random.below(9))
            .map(|_| random.pick(&[0, 1, 2, 10, 65_536, u32::MAX]))
            .collect();
        package.push(&tokens);
    }
    package
}

#[test]
fn there_and_back() {
    let mut random = Random(12);
    for turn in 0..500 {
        let package = random_package(&mut random);
        let bytes = package.write().unwrap_or_else(|refusal| panic!("turn {turn}: {refusal}"));
        let again = Package::read(&bytes).unwrap_or_else(|refusal| panic!("turn {turn}: {refusal}"));
        assert_eq!(again, package, "turn {turn}");
        assert_eq!(again.write().as_ref(), Ok(&bytes), "turn {turn}");
    }
}

#[test]
fn a_changed_byte_is_refused_or_kept() {
    let mut bytes = set_s_package().write().expect("bytes");
    let (mut refused, mut kept) = (0, 0);
    for at in 0..bytes.len() {
        for change in [1, 0x80, 0xff] {
            bytes[at] ^= change;
            match Package::read(&bytes) {
                Ok(package) => {
                    assert_eq!(package.write().as_ref(), Ok(&bytes), "byte {at}");
                    kept += 1;
                }
                Err(_) => refused += 1,
            }
            bytes[at] ^= change;
        }
    }
    assert!(refused > 100 && kept > 100, "{refused} refused, {kept} kept");
}

#[test]
fn the_room_is_worked_out() {
    // bytes that need the most words for their length, and a rule of the most items
    let mut package = Package::new(rules(&[(2, &[c(10); 32])]));
    assert!(Package::read(&package.write().expect("bytes")).is_ok());
    for _ in 0..10_000 {
        package.push(&[]);
    }
    let bytes = package.write().expect("bytes");
    assert_eq!(bytes.len(), 14 + (6 + 4 * 98) + 6 * 10_000 + 6);
    assert_eq!(Package::read(&bytes), Ok(package));
    // in the old form, bytes that need the most words for a rule
    let longest = ["0a010000 0500 02000000 20000000", &"01000000 03000000".repeat(32)].concat();
    let old = hex(&[H, &longest.repeat(2_048), E]);
    assert_eq!(Package::read(&old).map(|package| package.rules().words().len()), Ok(2_048 * 98));
    // longer than any statement that is parsed, and more rules than a build takes
    let mut long = Package::new(set_s10());
    long.push(&vec![14; 100_000]);
    assert_eq!(Package::read(&long.write().expect("bytes")), Ok(long));
    let mut many = rules(&[]);
    for label in 1..=2_049 {
        many.push_numbered(symbol(2), &[c(label)]);
    }
    assert!(Grammar::build(many.clone()).is_err());
    assert_eq!(Package::new(many).write(), Err(WriteError::BadRules));
}

#[test]
fn numbers_of_reads() {
    for number in 0..=30 {
        let refusal = ReadError::of(Read {
            number,
            place: 3,
            ..REFUSED
        });
        assert_eq!(refusal.map_or(0, |refusal| refusal.number()), number);
        let (listed, placed) = ([7, 10, 20, 21, 22, 23].contains(&number), (20..=23).contains(&number));
        assert_eq!(matches!(refusal, Some(ReadError::Unlisted(_))), number != 0 && !listed);
        assert_eq!(refusal.and_then(|refusal| refusal.record()), placed.then_some(3));
        let text = refusal.map(|refusal| refusal.to_string()).unwrap_or_default();
        assert_eq!(text.starts_with(&format!("read refused with {number}: ")), number != 0);
        assert_eq!(text.ends_with(", at record 3"), placed);
    }
}

#[test]
fn numbers_of_writes() {
    for number in 0..=30 {
        let refusal = WriteError::of(written(number, 0));
        assert_eq!(refusal.map_or(0, |refusal| refusal.number()), number);
        let listed = [7, 10, 22].contains(&number);
        assert_eq!(matches!(refusal, Some(WriteError::Unlisted(_))), number != 0 && !listed);
        let text = refusal.map(|refusal| refusal.to_string()).unwrap_or_default();
        assert_eq!(text.starts_with(&format!("write refused with {number}: ")), number != 0);
    }
}
