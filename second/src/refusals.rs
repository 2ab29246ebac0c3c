//! Refusals 1 to 6 of one file and of a packet, in document 01's order ("What comes back"), with the places that
//! document 02 (Two) asks. Whether the places are shown is for the verdict to say.

use crate::carrier::{self, Carrier, Placed, Token};
use crate::table::{self, Kind};

/// A refusal: its number, its file (0 none) and its place.
#[derive(Clone, Copy, Debug, PartialEq, Eq)]
pub struct Refusal {
    pub number: u8,
    pub file: u8,
    pub place: usize,
}

pub const FILE_BYTES: usize = 16_384;
pub const NESTING: usize = 64;
pub const MEMBERS: usize = 256;
pub const PARAMETERS: usize = 64;

/// The tokens of the file, or the first of its refusals: 1, 2, 3, 4, 6, 5, each asked of the whole file.
pub fn read(kind: Kind, bytes: &[u8]) -> Result<Vec<Placed<'_>>, Refusal> {
    let refuse = |number, place| Err(Refusal { number, file: kind as u8, place });
    if bytes.len() > FILE_BYTES {
        return refuse(1, FILE_BYTES);
    }
    match carrier::judge(bytes, NESTING) {
        Carrier::Fault(place) => return refuse(2, place),
        Carrier::Deep(place) => return refuse(3, place),
        Carrier::Sound => {}
    }
    let tokens = carrier::tokens(bytes);
    if let Some(place) = table::misfit(kind, &tokens) {
        return refuse(4, place);
    }
    if let Some(place) = members(kind, &tokens).get(MEMBERS) {
        return refuse(6, *place);
    }
    if let Some(place) = barred(kind, &tokens) {
        return refuse(5, place);
    }
    Ok(tokens)
}

/// Where each rule or candidate opens. The other files have none.
pub fn members(kind: Kind, tokens: &[Placed]) -> Vec<usize> {
    let mut open = 0;
    let mut places = Vec::new();
    for (place, token) in tokens {
        match token {
            Token::Open => {
                if open == 1 && matches!(kind, Kind::Rules | Kind::Terms) {
                    places.push(*place);
                }
                open += 1;
            }
            Token::Close => open -= 1,
            Token::Text(_) => {}
        }
    }
    places
}

/// The opening of the first barred `v` or `e`. The quantifiers around a term are the lists around it whose word is
/// `all` or `some`; a list of rules, of terms or a term has another word.
fn barred(kind: Kind, tokens: &[Placed]) -> Option<usize> {
    let mut around: Vec<bool> = Vec::new();
    for (here, (place, token)) in tokens.iter().enumerate() {
        match token {
            Token::Open => {
                let (word, next) = (octets(tokens, here + 1), octets(tokens, here + 2));
                let quantifiers = around.iter().filter(|quantifier| **quantifier).count();
                if bars(kind, word, next, quantifiers) {
                    return Some(*place);
                }
                around.push(word == b"all" || word == b"some");
            }
            Token::Close => drop(around.pop()),
            Token::Text(_) => {}
        }
    }
    None
}

/// Whether a list with this word and this second string is a barred term.
fn bars(kind: Kind, word: &[u8], next: &[u8], quantifiers: usize) -> bool {
    let number = || crate::batch::number(next).expect("a number of the table");
    match (kind, word) {
        (Kind::Rules | Kind::Goal, b"v") => number() >= quantifiers,
        (Kind::Rules | Kind::Goal, b"e") => true,
        (Kind::Terms, b"v") => true,
        (Kind::Terms, b"e") => !(1..=PARAMETERS).contains(&number()),
        _ => false,
    }
}

/// The octets of the string at this token; none if it is a parenthesis.
fn octets<'a>(tokens: &[Placed<'a>], at: usize) -> &'a [u8] {
    match tokens.get(at) {
        Some((_, Token::Text(octets))) => octets,
        _ => b"",
    }
}

/// Reads files in turn: rules, goal, terms and, if it is given, the strip. The numbers of rules and candidates.
pub fn packet(rules: &[u8], goal: &[u8], terms: &[u8], strip: Option<&[u8]>) -> Result<(usize, usize), Refusal> {
    let rules = read(Kind::Rules, rules)?;
    read(Kind::Goal, goal)?;
    let terms = read(Kind::Terms, terms)?;
    if let Some(strip) = strip {
        read(Kind::Strip, strip)?;
    }
    Ok((members(Kind::Rules, &rules).len(), members(Kind::Terms, &terms).len()))
}
