//! Files of a given number of bytes, members or levels, built from document 01's table.

use crate::expression::plain;
use crate::table::Kind;

/// Terms that take exactly this many bytes together; at least 56.
fn terms_of(bytes: usize) -> String {
    let long = bytes % 8;
    "(f aa)".repeat(long) + &"(f a)".repeat((bytes - 9 * long) / 8)
}

/// Path steps that take exactly this many bytes together; at least 9.
fn steps_of(bytes: usize) -> String {
    let long = bytes % 3;
    " 10".repeat(long) + &" l".repeat((bytes - 4 * long) / 3)
}

/// A file of this kind that the table allows, of exactly so many bytes.
pub fn of_bytes(kind: Kind, bytes: usize) -> Vec<u8> {
    let file = plain(&match kind {
        Kind::Rules => format!("(rules (atom p {}))", terms_of(bytes - 20)),
        Kind::Goal => format!("(atom p {})", terms_of(bytes - 11)),
        Kind::Terms => format!("(terms (f g {}))", terms_of(bytes - 17)),
        Kind::Strip => format!("(use 0 ({}))", steps_of(bytes - 12)),
    });
    assert_eq!(file.len(), bytes);
    file
}

/// A file of this kind that the table allows and that nests exactly so deep, at least 6.
pub fn of_levels(kind: Kind, levels: usize) -> Vec<u8> {
    let nest = |open: &str, inside: &str, times: usize| open.repeat(times) + inside + &")".repeat(times);
    plain(&match kind {
        Kind::Rules => format!("(rules {})", nest("(all ", "(atom p (v 0))", levels - 3)),
        Kind::Goal => nest("(imp (atom p) ", "(atom p)", levels - 1),
        Kind::Terms => format!("(terms {})", nest("(f g ", "(e 1)", levels - 2)),
        Kind::Strip => nest("(imp ", "(use 0 ())", levels - 2),
    })
}

/// Rules or terms with so many members.
pub fn of_members(kind: Kind, members: usize) -> String {
    match kind {
        Kind::Rules => format!("(rules {})", "(atom p)".repeat(members)),
        _ => format!("(terms {})", "(f a)".repeat(members)),
    }
}
