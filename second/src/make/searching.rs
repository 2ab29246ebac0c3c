//! Search cases: packets with and without a proof, heights and buffer sizes around those of the first strip.

use crate::batch::put;
use crate::chance::Chance;
use crate::make::formulas::{self, Scope};
use crate::make::judging::spelled;
use crate::make::{alike, damage, proofs, wanted};
use crate::verdict::{search, Files, ROOM};

/// No case by chance takes more looks than this, so that a plain search answers all of them soon.
const LOOKS: u64 = 2_000;

/// The three files that a search reads.
pub type Three = [Vec<u8>; 3];

/// The number of case files.
pub const PARTS: usize = 5;

/// The parts that hold document 01's cases and those by chance.
const FIRST: usize = 3;

/// A case: the three files, the height and the buffer's size.
type Case = Vec<u8>;

/// One of the case files, from 1 on: the cases in order, cut so that each file has about as many bytes; in the last two
/// those of document 02, Three: heads and suppositions, and names that are alike.
pub fn cases(part: usize) -> Vec<u8> {
    match part {
        4 => return named(wanted::matched()).concat(),
        5 => return named(alike::searches()).concat(),
        _ => {}
    }
    let mut all = named(wanted::searches());
    by_chance(&mut all);
    let whole: usize = all.iter().map(Vec::len).sum();
    let mut before = 0;
    let mut out = Vec::new();
    for case in all {
        if before * FIRST / whole + 1 == part {
            out.extend_from_slice(&case);
        }
        before += case.len();
    }
    out
}

fn named(asked: Vec<wanted::Asked>) -> Vec<Case> {
    let mut out = Vec::new();
    for (files, height, size) in asked {
        case(&mut out, &files, height, size);
    }
    out
}

fn case(out: &mut Vec<Case>, files: &Three, height: usize, size: usize) {
    let mut case = Vec::new();
    files.iter().for_each(|file| put(&mut case, file));
    put(&mut case, height.to_string().as_bytes());
    put(&mut case, size.to_string().as_bytes());
    out.push(case);
}

fn by_chance(out: &mut Vec<Case>) {
    let mut chance = Chance::new(7);
    let mut made = 0;
    while made < 600 {
        let (mut packet, strip) = proofs::packet(&mut chance);
        if chance.once_in(3) {
            let depth = chance.between(1, 3);
            packet.goal = formulas::goal(&mut chance, Scope { variables: 0, parameters: 0 }, depth);
        }
        let [rules, goal, terms, _] = spelled(&packet, &strip);
        let mut files = [rules, goal, terms];
        let bytes: usize = files.iter().map(Vec::len).sum();
        if bytes > 450 || (strip.nodes() < 4 && !chance.once_in(4)) {
            continue;
        }
        if chance.once_in(10) {
            let which = chance.below(3);
            files[which] = damage::file(&mut chance, &files[which]);
        }
        made += 1;
        around(out, &mut chance, &files, strip.height());
    }
}

/// Cases around the height of a strip and around the first strip's length, unless they take too many looks.
fn around(out: &mut Vec<Case>, chance: &mut Chance, files: &Three, height: usize) {
    let most = *chance.of(&[0, 1, 3, 5, 8, 31, 32, 32, 32, 33, 64]);
    for height in [height - 1, height, height + 1, most] {
        if height == most || !chance.once_in(3) {
            sizes(out, chance, files, height);
        }
    }
}

fn sizes(out: &mut Vec<Case>, chance: &mut Chance, files: &Three, height: usize) {
    let three = Files { rules: &files[0], goal: &files[1], terms: &files[2] };
    match search(three, height, usize::MAX, ROOM, LOOKS) {
        Err(_) => {}
        Ok(Err(_)) => case(out, files, height, *chance.of(&[0, 40, 16_384])),
        Ok(Ok((_, strip))) => {
            let least = chance.below(strip.len());
            for size in [strip.len() - 1, strip.len(), strip.len() + 1, 16_384, least] {
                if chance.once_in(3) {
                    case(out, files, height, size);
                }
            }
        }
    }
}
