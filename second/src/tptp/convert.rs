//! The whole answer to a TPTP text (document 02, One): the two files, or a refusal of file 1 and place 0, in the order
//! 1, 12, 13, 6, 3, 10.

use crate::carrier::{self, Carrier};
use crate::refusals::{Refusal, FILE_BYTES, MEMBERS, NESTING};
use crate::spell;
use crate::tptp::grammar::{Line, Reader};
use crate::tptp::part;
use crate::tptp::tokens::tokens;

/// The bytes of the rules and of the goal.
pub type Written = (Vec<u8>, Vec<u8>);

/// The lines of a text that the grammar allows.
pub fn lines(text: &[u8]) -> Option<Vec<Line>> {
    Reader::new(&tokens(text)?).file()
}

/// Converts a text, with buffers of these lengths for the two files.
pub fn convert(text: &[u8], rules_size: usize, goal_size: usize) -> Result<Written, Refusal> {
    let refuse = |number| Err(Refusal { number, file: 1, place: 0 });
    if text.len() > FILE_BYTES {
        return refuse(1);
    }
    let Some(lines) = lines(text) else { return refuse(12) };
    let Some(book) = part::book(&lines) else { return refuse(13) };
    if book.rules.len() > MEMBERS {
        return refuse(6);
    }
    let (rules, goal) = (spell::rules(&book.rules), spell::goal_file(&book.goal));
    if [&rules, &goal].iter().any(|file| carrier::judge(file, NESTING) != Carrier::Sound) {
        return refuse(3);
    }
    if rules.len() > rules_size.min(FILE_BYTES) || goal.len() > goal_size.min(FILE_BYTES) {
        return refuse(10);
    }
    Ok((rules, goal))
}
