//! The names of `make::names` have the numbers that are said there. The numbers are those of crate `keys` (specs/Key).

use second::make::names::{name, renamed, FUNCTIONS, NAMES, PREDICATES};

const MANY: u64 = 1 << 30;

/// A number mixed with another, as crate `keys` does.
fn mixed(number: u64, other: u64) -> u64 {
    (number * 1_000_003 + other * 7_919 + 12_345) % MANY
}

/// The number of a name.
fn number(name: &[u8]) -> u64 {
    name.iter().fold(1, |number, octet| (number * 257 + u64::from(*octet)) % MANY)
}

/// The number of a name with so many arguments that have one number.
fn with(first: &str, arguments: usize, number_of_each: u64) -> u64 {
    (0..arguments).fold(number(first.as_bytes()), |number, _| mixed(number, number_of_each))
}

#[test]
fn all_names_of_a_kind_have_one_number() {
    for first in PREDICATES.iter().chain(FUNCTIONS.iter().flatten()) {
        let mut names: Vec<Vec<u8>> = (0..NAMES).map(|n| name(first, n)).collect();
        for name in &names {
            assert!(name.len() <= 32 && name.iter().all(u8::is_ascii_lowercase));
            assert_eq!(number(name), number(first.as_bytes()));
        }
        names.sort();
        names.dedup();
        assert_eq!(names.len(), NAMES);
    }
}

#[test]
fn all_terms_and_all_predicates_have_one_number() {
    for (kind, each) in [1, mixed(5, 1)].into_iter().enumerate() {
        for (arguments, first) in FUNCTIONS[kind].iter().enumerate() {
            assert_eq!(with(first, arguments, each), each);
        }
    }
    for (arguments, first) in PREDICATES.iter().enumerate() {
        assert_eq!(with(first, arguments, 1), number(PREDICATES[0].as_bytes()));
    }
}

#[test]
fn a_name_stays_one_name() {
    let plain = second::expression::plain;
    let files = [
        plain("(rules (atom p) (atom r (f a)))"),
        plain("(imp (atom q) (and (atom p) (atom r (f a (f b)) (f b))))"),
        plain("(terms (f p) (f b) (e 1))"),
    ];
    let (p, f) = (|arguments, n| name(PREDICATES[arguments], n), |arguments, n| name(FUNCTIONS[1][arguments], n));
    let shown = |name: Vec<u8>| String::from_utf8(name).expect("letters");
    let [p0, p1, p2] = [p(0, 0), p(0, 1), p(1, 0)].map(shown);
    let r = shown(p(2, 0));
    let [a, g, b, c] = [f(0, 0), f(1, 0), f(0, 1), f(0, 2)].map(shown);
    let new = [
        plain(&format!("(rules (atom {p0}) (atom {p2} (f {a})))")),
        plain(&format!("(imp (atom {p1}) (and (atom {p0}) (atom {r} (f {g} (f {b})) (f {b}))))")),
        plain(&format!("(terms (f {c}) (f {b}) (e 1))")),
    ];
    assert_eq!(renamed(&files, 1), Some(new));
    let five = plain("(atom p (f a) (f a) (f a) (f a) (f a))");
    assert_eq!(renamed(&[files[0].clone(), five, files[2].clone()], 0), None);
    assert_eq!(renamed(&[Vec::new(), files[1].clone(), files[2].clone()], 0), None);
}
