//! Refusal 4's place against its meaning (document 02, Two): what comes before it can be completed to a file of that
//! kind, and with it nothing can. Completions are tried by brute force, judged as whole files.

use std::collections::HashSet;

use second::make::packets::{cases, KINDS};
use second::refusals::read;
use second::table::Kind;

/// Whether the whole file is built from the table.
fn built(kind: Kind, file: &[u8]) -> bool {
    read(kind, file).map_or_else(|refusal| refusal.number > 4, |_| true)
}

fn pieces(kind: Kind) -> [&'static str; 7] {
    match kind {
        Kind::Rules => [")", "(3:top)", "(4:atom1:p)", "1:p", "1:0", "5:rules", "4:atom1:p)"],
        Kind::Goal => [")", "(3:top)", "(4:atom1:p)", "1:p", "1:0", "3:top)", "4:atom1:p)"],
        Kind::Terms => [")", "(1:f1:a)", "(", "1:p", "1:0", "5:terms", "1:f1:a)"],
        Kind::Strip => [")", "(3:top)", "()", "1:0", "3:top)", "(3:use1:0())", "1:l"],
    }
}

/// Whether up to so many pieces complete the file.
fn completable(kind: Kind, begun: &[u8], pieces_left: usize) -> bool {
    begun.is_empty()
        || built(kind, begun)
        || pieces_left > 0
            && pieces(kind).iter().any(|p| completable(kind, &[begun, p.as_bytes()].concat(), pieces_left - 1))
}

#[test]
fn the_place_of_refusal_4_by_its_meaning() {
    let mut asked = HashSet::new();
    for case in second::batch::cases(&cases(1), 5).unwrap() {
        for (kind, file) in KINDS.into_iter().zip(&case[1..]) {
            let Err(refusal) = read(kind, file) else { continue };
            let tokens = if refusal.number == 4 { second::carrier::tokens(file) } else { continue };
            let levels = file.iter().filter(|byte| **byte == b'(').count();
            let next = tokens.iter().map(|(place, _)| *place).find(|place| *place > refusal.place);
            let with = &file[..next.unwrap_or(file.len())];
            if levels > 3 || !asked.insert((kind as u8, with.to_vec())) {
                continue;
            }
            assert!(completable(kind, &file[..refusal.place], 4), "{}", String::from_utf8_lossy(file));
            assert!(!completable(kind, with, 4), "{}", String::from_utf8_lossy(file));
        }
    }
    assert!(asked.len() > 200, "{}", asked.len());
}
