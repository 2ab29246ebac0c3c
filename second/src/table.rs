//! The table of words of document 01 ("The carrier and the words"), read one token at a time with a stack of what is
//! due. So the first token that nothing can follow is known when it comes: refusal 4's place in document 02 (Two).
//! Sizes, and which variables and parameters are barred, are none of the table's business.

use crate::carrier::{Placed, Token};

/// The four files, with document 01's numbers.
#[derive(Clone, Copy, Debug, PartialEq, Eq)]
pub enum Kind {
    Rules = 1,
    Goal = 2,
    Terms = 3,
    Strip = 4,
}

/// What may be due.
#[derive(Clone, Copy, Debug, PartialEq, Eq)]
enum Due {
    /// An opening parenthesis, and after it what is given.
    List(Inside),
    /// The word, and what follows it.
    Word(Inside),
    /// Any number of lists of this sort, then the closing parenthesis.
    Many(Inside),
    /// One strip node or none, then the closing parenthesis.
    PerhapsNode,
    /// Path steps, then the closing parenthesis.
    Steps,
    Path,
    Name,
    Number,
    Close,
}

/// The sorts of list that the table has.
#[derive(Clone, Copy, Debug, PartialEq, Eq)]
enum Inside {
    Rules,
    Terms,
    Term,
    Atom,
    Goal,
    Clause,
    Node,
}

/// The place of the first token that cannot stand there, if there is one.
pub fn misfit(kind: Kind, tokens: &[Placed]) -> Option<usize> {
    let mut due = vec![Due::List(match kind {
        Kind::Rules => Inside::Rules,
        Kind::Goal => Inside::Goal,
        Kind::Terms => Inside::Terms,
        Kind::Strip => Inside::Node,
    })];
    tokens.iter().find(|(_, token)| !takes(&mut due, token)).map(|(place, _)| *place)
}

/// Whether the token can come now; if so, `due` is afterwards what is due after it.
fn takes(due: &mut Vec<Due>, token: &Token) -> bool {
    let Some(now) = due.pop() else { return false };
    match (now, token) {
        (Due::List(inside), Token::Open) => due.push(Due::Word(inside)),
        (Due::Word(inside), Token::Text(word)) => match after(inside, word) {
            Some(next) => due.extend(next.iter().rev()),
            None => return false,
        },
        (Due::Many(inside), Token::Open) => due.extend([now, Due::Word(inside)]),
        (Due::PerhapsNode, Token::Open) => due.extend([Due::Close, Due::Word(Inside::Node)]),
        (Due::Many(_) | Due::PerhapsNode | Due::Steps | Due::Close, Token::Close) => {}
        (Due::Path, Token::Open) => due.push(Due::Steps),
        (Due::Steps, Token::Text(step)) if *step == b"l" || *step == b"r" || is_number(step) => due.push(now),
        (Due::Name, Token::Text(name)) if is_name(name) => {}
        (Due::Number, Token::Text(number)) if is_number(number) => {}
        _ => return false,
    }
    true
}

/// What follows this word in a list of this sort, in order; none if the table has no such word there.
fn after(inside: Inside, word: &[u8]) -> Option<&'static [Due]> {
    use Due::*;
    use Inside::*;
    Some(match (inside, word) {
        (Rules, b"rules") => &[Many(Clause)],
        (Terms, b"terms") => &[Many(Term)],
        (Term, b"v" | b"e") => &[Number, Close],
        (Term, b"f") => &[Name, Many(Term)],
        (Atom | Goal | Clause, b"atom") => &[Name, Many(Term)],
        (Goal | Node, b"top") => &[Close],
        (Goal, b"and" | b"or") => &[List(Goal), List(Goal), Close],
        (Goal, b"some" | b"all") => &[List(Goal), Close],
        (Goal, b"imp") => &[List(Clause), List(Goal), Close],
        (Clause, b"imp") => &[List(Goal), List(Atom), Close],
        (Clause, b"all") => &[List(Clause), Close],
        (Clause, b"and") => &[List(Clause), List(Clause), Close],
        (Node, b"and") => &[List(Node), List(Node), Close],
        (Node, b"left" | b"right" | b"all" | b"imp") => &[List(Node), Close],
        (Node, b"some") => &[Number, List(Node), Close],
        (Node, b"use") => &[Number, Path, PerhapsNode],
        _ => return None,
    })
}

/// A name: 1 to 32 octets, the first from a to z, then a to z, 0 to 9 or underscore.
pub fn is_name(octets: &[u8]) -> bool {
    let later = |octet: &u8| matches!(octet, b'a'..=b'z' | b'0'..=b'9' | b'_');
    (1..=32).contains(&octets.len()) && octets[0].is_ascii_lowercase() && octets.iter().all(later)
}

/// A number: one to three digits and no leading zero, save 0.
pub fn is_number(octets: &[u8]) -> bool {
    let digits = octets.iter().all(u8::is_ascii_digit);
    digits && (1..=3).contains(&octets.len()) && (octets.len() == 1 || octets[0] != b'0')
}
