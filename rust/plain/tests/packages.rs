//! Packages: each refusal at the very byte where it begins, and both ways round.

mod desk;

use desk::{rules, GARBAGE, S};
use plain::{Package, Written};

/// Bytes as they are written on paper; spaces only help the eye.
fn bytes(text: &str) -> Vec<u8> {
    let digits: Vec<u32> = text.chars().filter_map(|digit| digit.to_digit(16)).collect();
    digits.chunks_exact(2).map(|pair| (16 * pair[0] + pair[1]) as u8).collect()
}

/// The typecodes 1 and 2.
const H: &str = "0a000000 0100 01000000 02000000";
/// Rule 2 [c10].
const R: &str = "16000000 0200 02000000 01000000 00000000 0a000000 00000000";
/// The same in the old form.
const O: &str = "12000000 0500 02000000 01000000 00000000 0a000000";
/// The statement 1 10.
const P: &str = "0a000000 0300 01000000 0a000000";
const E: &str = "02000000 0400";

/// Any kind with any body.
fn record(kind: u16, words: &[u32]) -> Vec<u8> {
    let body: Vec<u8> = words.iter().flat_map(|word| word.to_le_bytes()).collect();
    let length = body.len() as u32 + 2;
    [&length.to_le_bytes()[..], &kind.to_le_bytes(), &body].concat()
}

struct Read {
    answer: Package,
    rules: Vec<u32>,
    statements: Vec<u32>,
}

/// Panics if a lent word is not as it should be.
fn read_in(package: &[u8], rules: usize, statements: usize) -> Read {
    let [mut rules, mut statements] = [rules, statements].map(|length| vec![GARBAGE; length]);
    let answer = plain::package_read(package, &mut rules, &mut statements);
    let (past_rules, past_statements) = (rules.split_off(answer.rules), statements.split_off(answer.words));
    assert!([past_rules, past_statements].concat().iter().all(|&word| word == 0));
    let Package { number, place, .. } = answer;
    let nothing = Package {
        number,
        place,
        ..Package::default()
    };
    assert!(number == 0 || answer == nothing, "a refusal gives nothing else");
    Read { answer, rules, statements }
}

/// Number and place, with room for any package of the tests.
fn answer(records: &[&str]) -> (u32, usize) {
    answer_of(&bytes(&records.concat()))
}

fn answer_of(package: &[u8]) -> (u32, usize) {
    let Package { number, place, .. } = read_in(package, 10_000, 1_000).answer;
    (number, place)
}

#[test]
fn what_comes_back() {
    let read = read_in(&bytes(&[H, R, P, E].concat()), 5, 3);
    let whole = Package {
        number: 0,
        place: 0,
        provable: 1,
        logic: 2,
        rules: 5,
        statements: 1,
        words: 3,
    };
    assert_eq!(read.answer, whole);
    assert_eq!((read.rules, read.statements), (vec![2, 1, 0, 10, 0], vec![2, 1, 10]));
}

#[test]
fn statements_are_counted_words() {
    let statements = |records: &[&str]| read_in(&bytes(&records.concat()), 0, 100).statements;
    assert_eq!(statements(&[H, E]), []);
    assert_eq!(statements(&[H, P, E]), [2, 1, 10]);
    assert_eq!(statements(&[H, "02000000 0300", E]), [0]);
    assert_eq!(statements(&[H, P, "02000000 0300", P, E]), [2, 1, 10, 0, 2, 1, 10]);
}

#[test]
fn no_byte_before_the_end_or_one_after_it() {
    assert_eq!(answer(&[]), (23, 0));
    assert_eq!(answer(&[H]), (23, 1));
    assert_eq!(answer(&[H, R, P]), (23, 3));
    assert_eq!(answer(&[H, E]), (0, 0));
    // Whatever comes after the end, it is never looked at.
    for more in ["00", "0000", "01000000 00", "02000000 0600", "03000000 0300 00", E, P, H] {
        assert_eq!(answer(&[H, E, more]), (23, 2), "{more}");
    }
}

#[test]
fn lengths() {
    for cut in [
        "00",
        "0a00",
        "0a0000",
        "00000000",
        "01000000 04",
        "03000000 0400",
        "02000000 04",
        "02000000",
    ] {
        assert_eq!(answer(&[H, cut]), (20, 1), "{cut}");
        assert_eq!(answer(&[cut]), (20, 0), "{cut}");
    }
    assert_eq!(answer(&[H, "ffffffff 0300", P, E]), (20, 1));
    assert_eq!(answer(&["ffffffff 0100 01000000 02000000"]), (20, 0));
    // Under 2 comes before the kind, and a kind before its body's size.
    assert_eq!(answer(&[H, "01000000 0900"]), (20, 1));
}

#[test]
fn kinds() {
    for kind in ["0000", "0600", "ffff", "0101", "0102", "0401", "0501", "0001"] {
        assert_eq!(answer(&[H, "02000000", kind]), (21, 1), "{kind}");
        assert_eq!(answer(&["03000000", kind, "00"]), (21, 0), "{kind}");
    }
}

#[test]
fn sizes() {
    let one = |kind: &str, bytes: usize| {
        let length = format!("{:02x}000000", bytes + 2);
        [length, kind.to_string(), "00".repeat(bytes)].concat()
    };
    for bytes in [0, 4, 7, 9, 12] {
        assert_eq!(answer(&[&one("0100", bytes)]), (22, 0));
        assert_eq!(answer(&[H, &one("0100", bytes)]), (22, 1));
    }
    // A body of zeros says that it has no items.
    for bytes in [0, 4, 7, 9, 12, 16, 20] {
        assert_eq!(answer(&[H, &one("0200", bytes)]), (22, 1), "{bytes}");
        assert_eq!(answer(&[H, &one("0500", bytes)]), (22, 1), "{bytes}");
    }
    for bytes in [1, 2, 3, 5, 6, 7] {
        assert_eq!(answer(&[H, &one("0300", bytes)]), (22, 1), "{bytes}");
        assert_eq!(answer(&[H, &one("0400", bytes)]), (22, 1), "{bytes}");
    }
    assert_eq!(answer(&[H, &one("0400", 4)]), (22, 1));
}

#[test]
fn sizes_do_not_wrap() {
    assert_eq!(
        answer(&[H, "16000000 0200 02000000 01000040 00000000 0a000000 00000000", E]),
        (22, 1)
    );
    assert_eq!(answer(&[H, "12000000 0500 02000000 01000020 00000000 0a000000", E]), (22, 1));
    for items in [
        0x2000_0001,
        0x4000_0001,
        0x8000_0001,
        0xaaaa_aaab,
        0x5555_5556,
        0xffff_ffff,
        0x7fff_ffff,
        0,
        2,
    ] {
        for (kind, body) in [(2, &[2, items, 0, 10, 0][..]), (5, &[2, items, 0, 10])] {
            let bad = [bytes(H), record(kind, body), bytes(E)].concat();
            assert_eq!(answer_of(&bad), (22, 1), "{kind}: {items}");
        }
    }
}

#[test]
fn one_form_under_the_kind_of_the_other() {
    let old = [bytes(H), record(2, &[2, 1, 0, 10]), bytes(E)].concat();
    let new = [bytes(H), record(5, &[2, 1, 0, 10, 0]), bytes(E)].concat();
    assert_eq!([old, new].map(|package| answer_of(&package)), [(22, 1), (22, 1)]);
}

#[test]
fn rules_of_the_old_form() {
    let rules = |words: &[u32]| read_in(&[bytes(H), record(5, words), bytes(E)].concat(), 100, 0).rules;
    // Slots are counted, and not items.
    assert_eq!(rules(&[2, 2, 0, 10, 1, 2]), [2, 2, 0, 10, 0, 1, 2, 1]);
    assert_eq!(rules(&[2, 3, 1, 3, 0, 7, 1, 3]), [2, 3, 1, 3, 1, 0, 7, 0, 1, 3, 2]);
    assert_eq!(rules(&[3, 1, 1, 2]), [3, 1, 1, 2, 1]);
    let longest = rules(&[vec![2, 32], [1, 3].repeat(32)].concat());
    assert!(longest[2..].chunks_exact(3).map(|item| item[2]).eq(1..=32));
}

#[test]
fn both_forms_in_one_package() {
    let new = record(2, &[2, 2, 0, 5, 0, 1, 2, 9]);
    let old = |constant| record(5, &[2, 2, 0, constant, 1, 2]);
    let package = [bytes(H), old(10), new, old(11), bytes(O), bytes(P), bytes(E)].concat();
    let three = [[2, 2, 0, 10, 0, 1, 2, 1], [2, 2, 0, 5, 0, 1, 2, 9], [2, 2, 0, 11, 0, 1, 2, 1]];
    // The last rule begins the first, which is for a build to say.
    let rules = [three.concat(), vec![2, 1, 0, 10, 0]].concat();
    let read = read_in(&package, rules.len(), 3);
    assert_eq!((read.answer.number, &read.rules), (0, &rules));
    assert_eq!(read_in(&package, rules.len() - 1, 3).answer.number, 7);
    // What is written has the new form only, and reads the same.
    let written = write_in((1, 2), &read.rules, &read.statements, 1_000).bytes;
    assert_eq!(written[14..][..6], [34, 0, 0, 0, 2, 0]);
    assert_ne!(written, package);
    let again = read_in(&written, rules.len(), 3);
    assert_eq!(
        (again.answer, again.rules, again.statements),
        (read.answer, read.rules, read.statements)
    );
}

#[test]
fn old_rules_need_the_room_of_new_ones() {
    let number = |words| read_in(&bytes(&[H, O, E].concat()), words, 0).answer.number;
    assert_eq!([4, 5].map(number), [7, 0]);
}

#[test]
fn variables_are_judged_with_the_rules() {
    let number = |words: &[u32]| answer_of(&[bytes(H), record(2, words), bytes(E)].concat());
    assert_eq!(number(&[2, 2, 1, 3, 7, 1, 4, 7]), (10, 0));
    assert_eq!(number(&[2, 2, 1, 3, 7, 1, 4, 8]), (0, 0));
    assert_eq!(number(&[2, 1, 0, 10, 1]), (10, 0));
    assert_eq!([0, 65_536].map(|variable| number(&[2, 1, 1, 3, variable])), [(10, 0), (10, 0)]);
    // An old rule may mean one variable twice, and nobody can tell.
    assert_eq!(answer_of(&[bytes(H), record(5, &[2, 2, 1, 3, 1, 3]), bytes(E)].concat()), (0, 0));
    // A bad kind of item stays bad.
    assert_eq!(answer_of(&[bytes(H), record(5, &[2, 1, 2, 10]), bytes(E)].concat()), (10, 0));
}

#[test]
fn too_many_or_no_items_are_a_bad_rule() {
    for (kind, item) in [(2, &[0, 10, 0][..]), (5, &[0, 10])] {
        assert_eq!(answer_of(&[bytes(H), record(kind, &[2, 0]), bytes(E)].concat()), (10, 0));
        let long = |items: u32| [vec![2, items], item.repeat(items as usize)].concat();
        let package = |items| [bytes(H), record(kind, &long(items)), bytes(E)].concat();
        assert_eq!([32, 33, 40].map(|items| answer_of(&package(items))), [(0, 0), (10, 0), (10, 0)]);
    }
}

#[test]
fn order_of_kinds() {
    assert_eq!(answer(&[E]), (23, 0));
    assert_eq!(answer(&[R, H, E]), (23, 0));
    assert_eq!(answer(&[P, H, E]), (23, 0));
    assert_eq!(answer(&[H, H, E]), (23, 1));
    assert_eq!(answer(&[H, R, P, H, E]), (23, 3));
    assert_eq!(answer(&[H, P, R, E]), (23, 2));
    assert_eq!(answer(&[H, P, O, E]), (23, 2));
    assert_eq!(answer(&[O, H, E]), (23, 0));
    assert_eq!(answer(&[H, R, R, P, P, E]), (0, 0));
    assert_eq!(answer(&[H, R, O, R, P, E]), (0, 0));
    // The size is asked before the order.
    assert_eq!(answer(&[H, "06000000 0100 01000000", E]), (22, 1));
    assert_eq!(answer(&[H, P, "06000000 0200 01000000", E]), (22, 2));
    assert_eq!(answer(&["03000000 0400 00"]), (22, 0));
}

#[test]
fn room_before_bad_rules() {
    let same = "0a000000 0100 01000000 01000000";
    let number = |records: &[&str], rules, statements| {
        let Package { number, place, .. } = read_in(&bytes(&records.concat()), rules, statements).answer;
        assert_eq!(place, 0);
        number
    };
    assert_eq!(number(&[same, R, E], 4, 0), 7);
    assert_eq!(number(&[same, R, E], 5, 0), 10);
    assert_eq!(number(&[H, R, P, E], 5, 2), 7);
    assert_eq!(number(&[H, R, P, E], 4, 3), 7);
    assert_eq!(number(&[H, R, P, E], 5, 3), 0);
    // A fault of a record comes before either.
    assert_eq!(answer(&[same, R, P]), (23, 3));
}

#[test]
fn typecodes_are_judged_with_the_rules() {
    for (provable, logic) in [(0, 2), (1, 0), (1, 1), (65_536, 2), (1, 65_536)] {
        assert_eq!(answer_of(&[record(1, &[provable, logic]), bytes(E)].concat()), (10, 0));
    }
    assert_eq!(answer_of(&[record(1, &[2, 1]), bytes(R), bytes(E)].concat()), (10, 0));
}

#[test]
fn room_for_more_rules_than_there_may_be() {
    let rules: Vec<u8> = (1..=2_049).flat_map(|symbol| record(2, &[2, 1, 0, symbol, 0])).collect();
    let package = [bytes(H), rules, bytes(E)].concat();
    let number = |words| read_in(&package, words, 0).answer.number;
    assert_eq!([5 * 2_049 - 1, 5 * 2_049].map(number), [7, 10]);
}

struct Wrote {
    answer: Written,
    bytes: Vec<u8>,
}

fn write_in(typecodes: (u32, u32), rules: &[u32], statements: &[u32], room: usize) -> Wrote {
    let mut bytes = vec![0xa5; room];
    let answer = plain::package_write(typecodes.0, typecodes.1, rules, statements, &mut bytes);
    assert!(bytes.split_off(answer.length).iter().all(|&byte| byte == 0));
    assert_eq!(answer.place, 0);
    Wrote { answer, bytes }
}

#[test]
fn bytes_that_are_written() {
    let write = |rules: &[u32], statements: &[u32]| write_in((1, 2), rules, statements, 200).bytes;
    assert_eq!(write(&[], &[]), bytes(&[H, E].concat()));
    assert_eq!(write(&[2, 1, 0, 10, 0], &[2, 1, 10]), bytes(&[H, R, P, E].concat()));
    assert_eq!(write(&[], &[0]), bytes(&[H, "02000000 0300", E].concat()));
}

#[test]
fn refusals_of_the_writer() {
    let number = |rules: &[u32], statements: &[u32], room| write_in((1, 2), rules, statements, room).answer.number;
    let good = [2, 1, 0, 10, 0];
    for words in [&[1][..], &[1 << 30], &[u32::MAX], &[2, 1, 10, 1], &[3, 1, 10]] {
        assert_eq!(number(&good, words, 0), 22, "{words:?}");
        assert_eq!(number(&good[..4], words, 1_000), 10, "{words:?}");
    }
    let whole = bytes(&[H, R, P, E].concat()).len();
    assert_eq!(
        [whole - 1, whole, whole + 9].map(|room| number(&good, &[2, 1, 10], room)),
        [7, 0, 0]
    );
    assert_eq!(number(&[], &[], 0), 7);
    for typecodes in [(0, 2), (1, 1), (1, 65_536)] {
        assert_eq!(write_in(typecodes, &[], &[], 100).answer.number, 10);
    }
}

#[test]
fn both_ways_round() {
    let (rules, statements) = (rules(S), vec![2, 1, 10, 0, 6, 1, 5, 10, 7, 11, 6]);
    let written = write_in((1, 2), &rules, &statements, 1_000).bytes;
    let read = read_in(&written, rules.len(), statements.len());
    assert_eq!((read.answer.number, read.answer.statements), (0, 3));
    assert_eq!((&read.rules, &read.statements), (&rules, &statements));
    assert_eq!(write_in((1, 2), &read.rules, &read.statements, written.len()).bytes, written);
}

#[test]
fn every_cut_is_refused() {
    let package = bytes(&[H, R, P, E].concat());
    let starts = [0, 14, 40, 54, 60];
    for end in 0..package.len() {
        let record = starts.iter().filter(|&&start| start <= end).count() - 1;
        let number = if starts.contains(&end) { 23 } else { 20 };
        assert_eq!(answer_of(&package[..end]), (number, record), "{end}");
    }
}
