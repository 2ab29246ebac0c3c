//! Names that the search's own numbers do not tell apart (crate `keys`, document 02, Three). A name's number is that of
//! its octets in base 257, modulo 1,073,741,824. Since 256 to the fourth is 0 there, adding 1, -4, 6, -4, 1 to five octets
//! in a row makes another name with the same number. The first names are chosen so that all predicates have one number,
//! however many arguments they have, and so have all terms that hold no parameter.

use crate::expression::{text, Expression};
use crate::make::searching::Three;
use crate::verdict::Files;

/// The first names of predicates with 0, 1, 2 and 3 arguments.
pub const PREDICATES: [&str; 4] = ["bgfnkmmnkt", "hmkqrkmowv", "vkjpkjpnfapj", "chfjproghnbl"];

/// The first names of functions with 0, 1 and 2 arguments: terms of the first three have the number 1, which each
/// argument counts for in a predicate's number, those of the others the number of `e` 1.
pub const FUNCTIONS: [[&str; 3]; 2] =
    [["tigqklimgqea", "qliklorketp", "gslnkqqlqubc"], ["kulsppjnjakgb", "ighjkkjfpmzct", "gwfpkpigytcdc"]];

/// How many names have the number of a first one.
pub const NAMES: usize = 64;

/// What leaves a name's number as it is.
const SAME: [i8; 5] = [1, -4, 6, -4, 1];

/// Name number `n` of those with the number of this one: octets are changed from each place on that has its bit in `n`.
pub fn name(first: &str, n: usize) -> Vec<u8> {
    let mut octets = first.as_bytes().to_vec();
    for from in (0..6).filter(|place| n >> place & 1 == 1) {
        octets[from..].iter_mut().zip(SAME).for_each(|(octet, more)| *octet = octet.wrapping_add_signed(more));
    }
    octets
}

/// Names as they are met: `atom` or `f`, the name and the number of arguments.
type Met = Vec<(Vec<u8>, Vec<u8>, usize)>;

/// The same packet with names that are alike, the functions those of one of the two kinds; nothing where a file is
/// refused, or more names are needed than there are.
pub fn renamed(files: &Three, kind: usize) -> Option<Three> {
    let [rules, goal, terms] = files;
    Files { rules, goal, terms }.packet().ok()?;
    let mut met = Met::new();
    let mut out = Three::default();
    for (file, new) in files.iter().zip(&mut out) {
        let mut tree = Expression::read(file);
        rename(&mut tree, kind, &mut met)?;
        *new = tree.spell();
    }
    Some(out)
}

fn rename(tree: &mut Expression, kind: usize, met: &mut Met) -> Option<()> {
    let Expression::List(members) = tree else { return Some(()) };
    let arguments = members.len().saturating_sub(2);
    let first = match &members[0] {
        word if *word == text("atom") => PREDICATES.get(arguments)?,
        word if *word == text("f") => FUNCTIONS[kind].get(arguments)?,
        _ => "",
    };
    if !first.is_empty() {
        members[1] = Expression::Text(name(first, number(members, met).filter(|n| *n < NAMES)?));
    }
    members.iter_mut().try_for_each(|member| rename(member, kind, met))
}

/// How many others of the same kind and as many arguments were met before this name.
fn number(members: &[Expression], met: &mut Met) -> Option<usize> {
    let [Expression::Text(word), Expression::Text(name), ..] = members else { return None };
    let this = (word.clone(), name.clone(), members.len());
    if !met.contains(&this) {
        met.push(this.clone());
    }
    met.iter().filter(|other| (&other.0, other.2) == (word, members.len())).position(|other| *other == this)
}
