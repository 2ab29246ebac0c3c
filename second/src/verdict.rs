//! What comes back (document 01): the whole answers of the checker and of the search, from the bytes of the files.

use crate::check;
use crate::formula::{Clause, Goal, Term};
use crate::refusals::{read, Refusal, FILE_BYTES};
use crate::search::{Search, Unanswered};
use crate::strip::Node;
use crate::table::Kind;
use crate::trees::Trees;

pub const ROOM: usize = 8_192;
pub const HEIGHT: usize = 32;

/// The three files that a search reads, as bytes.
#[derive(Clone, Copy)]
pub struct Files<'a> {
    pub rules: &'a [u8],
    pub goal: &'a [u8],
    pub terms: &'a [u8],
}

/// The same as trees.
#[derive(Clone, Debug)]
pub struct Packet {
    pub rules: Vec<Clause>,
    pub goal: Goal,
    pub candidates: Vec<Term>,
}

/// Found: the strip's tree and its bytes.
pub type Found = (Node, Vec<u8>);

fn none(number: u8) -> Refusal {
    Refusal { number, file: 0, place: 0 }
}

impl Files<'_> {
    /// The packet, or the first refusal of files 1 to 3.
    pub fn packet(self) -> Result<Packet, Refusal> {
        let rules = read(Kind::Rules, self.rules)?;
        let goal = read(Kind::Goal, self.goal)?;
        let terms = read(Kind::Terms, self.terms)?;
        let (rules, goal, candidates) =
            (Trees::new(&rules).rules(), Trees::new(&goal).goal(), Trees::new(&terms).terms());
        Ok(Packet { rules, goal, candidates })
    }
}

/// The checker: the accepted strip, or the refusal.
pub fn judge(files: Files, strip: &[u8], room: usize) -> Result<Node, Refusal> {
    if room < ROOM {
        return Err(none(11));
    }
    let packet = files.packet()?;
    let strip = Trees::new(&read(Kind::Strip, strip)?).node();
    match check::misfit(&strip, &packet.goal, &packet.rules, &packet.candidates) {
        Some(place) => Err(Refusal { number: 7, file: 4, place }),
        None => Ok(strip),
    }
}

/// The search: the first strip, or the refusal; or no answer within so many looks.
pub fn search(
    files: Files,
    height: usize,
    size: usize,
    room: usize,
    looks: u64,
) -> Result<Result<Found, Refusal>, Unanswered> {
    if room < ROOM {
        return Ok(Err(none(11)));
    }
    if height > HEIGHT {
        return Ok(Err(none(9)));
    }
    let packet = match files.packet() {
        Ok(packet) => packet,
        Err(refusal) => return Ok(Err(refusal)),
    };
    let Some(node) = Search::new(&packet.candidates, looks).goal(&packet.goal, &packet.rules, 0, height)? else {
        return Ok(Err(none(8)));
    };
    let bytes = crate::spell::strip(&node);
    if bytes.len() > size || bytes.len() > FILE_BYTES {
        return Ok(Err(none(10)));
    }
    Ok(Ok((node, bytes)))
}
