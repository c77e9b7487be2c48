//! Replays the published Rust's stored answers through the library, and shows that the replay can fail.

use tools::held::{hold, Again, Tally, Verdict};
use tools::oracle::{Answers, Asked, Build};
use tools::sides::{Side, LIBRARY, PLAIN};
use tools::vectors;

const FILES: [(&str, &str); 4] = [
    ("sheet", include_str!("../vectors/sheet.txt")),
    ("grown", include_str!("../vectors/grown.txt")),
    ("gardens", include_str!("../vectors/gardens.txt")),
    ("ordered", ORDERED),
];

/// Sets that show in which order the Rust's maps are gone through, with the answers of the Rust whose maps are in key order.
const ORDERED: &str = include_str!("../vectors/ordered.txt");

/// The Rust isn't here to be asked again.
const NOBODY: Again = Again {
    shuffled: &|_| Vec::new(),
    in_key_order: &|_| None,
};

/// Each has to come up in one of the files, or the files no longer show what they are kept for.
const PAIRS: [(Verdict, &str); 43] = [
    (Verdict::Same, "build: 0 / built"),
    (Verdict::Same, "build: 11 / diag ambiguous"),
    (Verdict::Same, "build: 14 / panic sixth reduce"),
    (Verdict::Same, "build: 16 / diag leaf"),
    (Verdict::Same, "build: 16 / panic same node"),
    (Verdict::Same, "build: 0 / built, other numbers"),
    (Verdict::Same, "build: 15 / panic offset"),
    (Verdict::Same, "build: 16 (no edge from the second place) / diag expanded"),
    (Verdict::Same, "build: 16 (not in the tree) / diag prefix"),
    (Verdict::Same, "build: 16 (not in the tree) / diag reduces left over"),
    (Verdict::Same, "build: 16 (not in the tree) / diag shadow"),
    (Verdict::Same, "parse: 0 / ok same typed"),
    (Verdict::Same, "parse: 1 / toofew"),
    (Verdict::Same, "parse: 2 / unparseable"),
    (Verdict::Same, "parse: 3 / tooshort"),
    (Verdict::Listed, "build: 10 (body too long) / built"),
    (Verdict::Listed, "build: 10 (conversion with equal ends) / built"),
    (Verdict::Listed, "build: 10 (empty body) / built"),
    (Verdict::Listed, "build: 10 (provable and logic the same) / built"),
    (Verdict::Listed, "build: 10 (provable result) / diag other"),
    (Verdict::Listed, "build: 10 (symbol out of range) / built"),
    (Verdict::Listed, "build: 11 (variables) / built"),
    (Verdict::Listed, "build: 11 / panic same node"),
    (Verdict::Listed, "parse: 0 later / ok differs typed"),
    (Verdict::Listed, "parse: 0 later / ok differs typed-as"),
    (Verdict::Listed, "parse: 0 later / panic several roots"),
    (Verdict::Listed, "parse: 2 later / ok differs typed-as"),
    (Verdict::Listed, "parse: 2 later / panic several roots"),
    (Verdict::Listed, "parse: 3 later / ok differs typed"),
    (Verdict::Listed, "parse: 3 later / ok differs typed-as"),
    (Verdict::Listed, "parse: 3 later / panic several roots"),
    (Verdict::Listed, "parse: 4 / ok same illtyped"),
    (Verdict::Listed, "parse: 4 / ok differs illtyped"),
    (Verdict::Listed, "parse: 4 / panic too few trees"),
    (Verdict::Listed, "parse: 0 raised / ok differs typed"),
    (Verdict::Listed, "build: 0 / built, raised"),
    (Verdict::Listed, "build: 0 / diag double conflict"),
    (Verdict::Listed, "build: 12 / endless"),
    (Verdict::Listed, "build: 16 (a clone to a leaf or itself) / built"),
    (Verdict::Listed, "build: 16 (no edge from the second place) / built"),
    (Verdict::Listed, "build: 16 (rows to their own node) / built"),
    (Verdict::Listed, "build: 17 / endless"),
    (Verdict::Listed, "parse: 9 / ok same typed"),
];

fn held(asked: &Asked, answers: &Answers) -> Tally {
    let mut tally = Tally::default();
    hold(&PLAIN, "stored", asked, answers, &NOBODY, &mut tally);
    tally
}

/// All files together.
fn replayed(side: &Side) -> Tally {
    let mut tally = Tally::default();
    for (name, text) in FILES {
        for (asked, answers) in vectors::read(text).unwrap_or_else(|why| panic!("{name}: {why}")) {
            hold(side, name, &asked, &answers, &NOBODY, &mut tally);
        }
    }
    tally
}

/// Whether a file's text is refused, or a set in it found to part from the library.
fn fails(text: &str) -> bool {
    vectors::read(text).map_or(true, |sets| sets.iter().any(|(asked, answers)| held(asked, answers).found() > 0))
}

/// The lines of each set of a file, with their answers.
fn sets_of(text: &str) -> Vec<Vec<&str>> {
    let mut sets: Vec<Vec<&str>> = Vec::new();
    for line in vectors::unseal(text)
        .expect("a whole file")
        .lines()
        .filter(|line| !line.starts_with("## "))
    {
        if line.starts_with("set ") {
            sets.push(Vec::new());
        }
        sets.last_mut().expect("a set comes first").push(line);
    }
    sets
}

/// Lines as a file of their own, so that nothing but what they say can make them fail.
fn sealed(lines: &[&str]) -> String {
    vectors::seal(&(lines.join("\n") + "\n"))
}

/// Some small sets of which everything is compared: those that build in both.
fn small_sets() -> impl Iterator<Item = Vec<&'static str>> {
    let sets = FILES
        .into_iter()
        .flat_map(|(_, text)| sets_of(text))
        .filter(|set| set.len() < 60 && builds_in_both(set));
    sets.step_by(4)
}

fn builds_in_both(set: &[&str]) -> bool {
    let read = vectors::read(&sealed(set)).expect("a whole set");
    held(&read[0].0, &read[0].1)
        .pairs
        .contains_key(&(Verdict::Same, "build: 0 / built".to_string()))
}

#[test]
fn the_library_says_what_is_stored() {
    says_what_is_stored(&LIBRARY);
}

#[test]
fn the_papers_in_ordinary_rust_say_what_is_stored() {
    says_what_is_stored(&PLAIN);
}

fn says_what_is_stored(side: &Side) {
    let tally = replayed(side);
    for ((verdict, pair), seen) in &tally.pairs {
        assert_ne!(*verdict, Verdict::Found, "{pair}: {:?}", seen.inputs);
    }
    for (what, least) in [
        ("trees equal", 100),
        ("edges with an offset", 60),
        ("edges with an offset above 1", 20),
        ("garden paths", 150),
        ("statements", 1_200),
        ("lists equal", 500),
        ("places equal", 400),
    ] {
        assert!(tally.compared[what] >= least, "{what}: {}", tally.compared[what]);
    }
}

/// Not up to numbers of nodes, as it is with the unchanged Rust.
#[test]
fn in_key_order_trees_are_equal_with_their_numbers() {
    for side in [&LIBRARY, &PLAIN] {
        let mut tally = Tally::default();
        for (asked, answers) in vectors::read(ORDERED).expect("a whole file") {
            hold(side, "ordered", &asked, &answers, &NOBODY, &mut tally);
        }
        let count = |pair: &str| {
            let seen = tally.pairs.get(&(Verdict::Same, format!("build: 0 / built{pair}")));
            seen.map_or(0, |seen| seen.count)
        };
        assert_eq!((count("") > 30, count(", other numbers")), (true, 0), "{}", side.name);
    }
}

/// Where the unchanged Rust has other numbers of nodes, the one in key order is asked, and may not have other ones.
#[test]
fn other_numbers_in_key_order_are_found() {
    let mut count = 0;
    for (asked, answers) in vectors::read(FILES[2].1).expect("a whole file") {
        let renumbered = |tally: &Tally| tally.pairs.keys().any(|(_, pair)| pair == "build: 0 / built, other numbers");
        if !renumbered(&held(&asked, &answers)) {
            continue;
        }
        let again = Again {
            shuffled: &|_| Vec::new(),
            in_key_order: &|_| Some(answers.clone()),
        };
        let mut tally = Tally::default();
        hold(&PLAIN, "stored", &asked, &answers, &again, &mut tally);
        assert_eq!(tally.found(), 1, "{asked}");
        count += 1;
    }
    assert!(count > 10, "{count}");
}

#[test]
fn every_pair_of_answers_is_stored() {
    let tally = replayed(&PLAIN);
    for (verdict, pair) in PAIRS {
        assert!(tally.pairs.contains_key(&(verdict, pair.to_string())), "missing: {pair}");
    }
}

#[test]
fn an_empty_file_fails() {
    assert!(fails(""));
    assert!(fails(&vectors::seal("")));
    assert!(fails(&vectors::seal("## no set\n")));
}

#[test]
fn a_cut_file_fails() {
    for (name, text) in FILES {
        let lines: Vec<usize> = text.match_indices('\n').map(|(at, _)| at + 1).collect();
        for end in lines[..lines.len() - 1].iter().step_by(lines.len() / 20) {
            assert!(vectors::read(&text[..*end]).is_err(), "{name} cut at {end}");
        }
        let last = lines[lines.len() - 2];
        assert!(
            vectors::read(&text[..last]).is_err() && vectors::read(text).is_ok(),
            "{name} without its last line"
        );
    }
}

#[test]
fn a_changed_answer_fails_by_the_digest() {
    for (name, text) in FILES {
        let answers: Vec<usize> = text.match_indices("\n# ").map(|(at, _)| at).collect();
        for at in answers.iter().step_by(answers.len() / 20) {
            let mut bytes = text.as_bytes().to_vec();
            bytes[at + 3] ^= 1;
            let changed = String::from_utf8(bytes).expect("still a text");
            assert!(vectors::read(&changed).is_err(), "{name} at {at}");
        }
    }
}

/// An answer with each of its numbers raised by one, where the library's answer decides on that number. A list that the library refuses
/// with 4, and the text of a panic, are the Rust's own; of those answers only the passes are compared.
fn raised(answer: &str) -> Vec<String> {
    let own = answer.starts_with("panic") || answer.starts_with("ok") && !answer.ends_with("same typed");
    let start = if own {
        answer.find(" ; passes").expect("an answer to a statement")
    } else {
        0
    };
    let mut all = Vec::new();
    let mut at = start;
    for word in answer[start..].split(' ') {
        if let Ok(number) = word.parse::<u32>() {
            all.push(format!("{}{}{}", &answer[..at], number + 1, &answer[at + word.len()..]));
        }
        at += word.len() + 1;
        if own && all.len() == 1 {
            break;
        }
    }
    all
}

/// Raises each number of each answer of a set, one after the other; says how many there were.
fn change_each(set: &[&str]) -> usize {
    let mut count = 0;
    for at in 0..set.len() {
        for answer in set[at].strip_prefix("# ").map(raised).unwrap_or_default() {
            let line = format!("# {answer}");
            let changed = [&set[..at], &[line.as_str()], &set[at + 1..]].concat();
            assert!(fails(&sealed(&changed)), "{line} for {} in {set:?}", set[at]);
            count += 1;
        }
    }
    count
}

#[test]
fn a_changed_answer_fails_without_the_digest() {
    let count: usize = small_sets().map(|set| change_each(&set)).sum();
    assert!(count > 500, "{count}");
}

#[test]
fn a_missing_answer_fails_without_the_digest() {
    for set in small_sets() {
        for at in (0..set.len()).filter(|&at| set[at].starts_with("# ")) {
            let rest = [&set[..at], &set[at + 1..]].concat();
            assert!(vectors::read(&sealed(&rest)).is_err(), "{} in {set:?}", set[at]);
        }
    }
}

/// What we refuse and the Rust builds.
const BUILT_THERE: [&str; 3] = [
    "no edge from the second place",
    "rows to their own node",
    "a clone to a leaf or itself",
];

/// Both refuse; were the Rust to build such a set, it would be found.
#[test]
fn a_build_that_is_refused_by_one_alone_is_found() {
    let mut count = 0;
    for (_, text) in FILES {
        for (asked, mut answers) in vectors::read(text).expect("a whole file") {
            let refused = |pair: &str| pair.starts_with("build: 1") && !BUILT_THERE.iter().any(|why| pair.contains(why));
            let both_refuse = held(&asked, &answers)
                .pairs
                .keys()
                .any(|(verdict, pair)| *verdict == Verdict::Same && refused(pair));
            if both_refuse {
                answers.build = Build::Built {
                    nodes: answers.tree.nodes.len(),
                    edges: answers.tree.edges.len(),
                };
                assert!(held(&asked, &answers).found() > 0, "{asked}");
                count += 1;
            }
        }
    }
    assert!(count >= 60, "{count}");
}
