//! Damage to a file: of its words, so that it stays one canonical expression, or of its bytes.

use crate::chance::Chance;
use crate::expression::{text, Expression};
use crate::make::carrier;

/// Names, good and bad, at every edge of document 01's rule.
pub fn names() -> Vec<Vec<u8>> {
    let mut all: Vec<Vec<u8>> = [
        "", "P", "_a", "1a", "a-b", "a b", "aB", "a_", "a1", "z", "a{", "`", "{", "a/", "a:", "v", "f", "e", "atom",
        "all", "rules", "0",
    ]
    .iter()
    .map(|name| name.as_bytes().to_vec())
    .collect();
    all.extend([31, 32, 33, 64].map(|length| vec![b'q'; length]));
    all.extend([b"\0".to_vec(), b"a\0".to_vec(), b"\xc8".to_vec(), b"a\xc8".to_vec(), b"ab\xff".to_vec()]);
    all.push([vec![b'q'; 31], vec![b'Q']].concat());
    all
}

/// Numbers, good and bad, at every edge of document 01's rule.
pub const NUMBERS: [&str; 26] = [
    "0", "1", "2", "9", "10", "63", "64", "65", "99", "100", "255", "256", "257", "998", "999", "1000", "00", "01",
    "001", "010", "~", "-1", "+1", "1a", "l", "0x1",
];

/// Words of the table, and some that are none.
pub const WORDS: [&str; 27] = [
    "v", "f", "e", "atom", "top", "and", "or", "some", "all", "imp", "rules", "terms", "left", "right", "use", "l",
    "r", "Top", "tops", "to", "an", "nor", "atoms", "rule", "E", "0", "~",
];

/// A string that may be wrong anywhere.
fn string(chance: &mut Chance) -> Expression {
    let word = match chance.below(5) {
        0 => return text(chance.of(&names())),
        1 | 2 => *chance.of(&NUMBERS),
        _ => *chance.of(&WORDS),
    };
    text(if word == "~" { "" } else { word })
}

/// One change of the words of an expression.
pub fn words(chance: &mut Chance, file: &mut Expression) {
    let size = file.size();
    let other = file.part(chance.below(size)).clone();
    let here = file.part(chance.below(size));
    match here {
        Expression::Text(octets) => match chance.below(6) {
            0 => *here = other,
            1 => octets.push(b'0' + chance.below(10) as u8),
            2 => drop(octets.pop()),
            _ => *here = string(chance),
        },
        Expression::List(members) => {
            let at = chance.below(members.len() + 1);
            match chance.below(7) {
                0 => members.insert(at, string(chance)),
                1 => members.insert(at, other),
                2 => *here = Expression::List(vec![here.clone()]),
                3 => members.reverse(),
                4 => *here = other,
                5 if at < members.len() => *here = members[at].clone(),
                _ if at < members.len() => drop(members.remove(at)),
                _ => members.push(Expression::List(Vec::new())),
            }
        }
    }
}

/// One variable or parameter made another, so that it may be barred; the number of those there is returned.
pub fn variables(chance: &mut Chance, file: &mut Expression) -> usize {
    let mut numbers = Vec::new();
    for n in 0..file.size() {
        if let Expression::List(members) = file.part(n) {
            if members.len() == 2 && (members[0] == text("v") || members[0] == text("e")) {
                numbers.push(n);
            }
        }
    }
    if !numbers.is_empty() {
        let number = chance.below(4).to_string();
        let number = text(*chance.of(&[&number, "0", "64", "65", &number, &number]));
        let word = text(*chance.of(&["v", "v", "v", "e"]));
        *file.part(*chance.of(&numbers)) = Expression::List(vec![word, number]);
    }
    numbers.len()
}

/// The bytes of a file after one change of its bytes or up to two of its words.
pub fn file(chance: &mut Chance, bytes: &[u8]) -> Vec<u8> {
    if chance.once_in(6) {
        let mut bytes = bytes.to_vec();
        carrier::damage(chance, &mut bytes);
        return bytes;
    }
    let mut expression = Expression::read(bytes);
    if chance.once_in(3) && variables(chance, &mut expression) > 0 {
        return expression.spell();
    }
    for _ in 0..chance.between(1, 2) {
        words(chance, &mut expression);
    }
    expression.spell()
}
