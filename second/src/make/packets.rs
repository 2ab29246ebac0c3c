//! Packet cases: sound packets and packets damaged in every file, for refusals 1 to 6 and their places.

use crate::batch::put;
use crate::chance::Chance;
use crate::expression::plain;
use crate::make::damage::{self, NUMBERS, WORDS};
use crate::make::formulas::{self, Scope};
use crate::make::sizes::{of_bytes, of_levels, of_members};
use crate::spell;
use crate::table::Kind;

/// The four files of a packet.
pub type Files = [Vec<u8>; 4];

pub const KINDS: [Kind; 4] = [Kind::Rules, Kind::Goal, Kind::Terms, Kind::Strip];

/// The number of case files.
pub const PARTS: usize = 2;

/// One of the case files, from 1 on: for each case the number of files read (4, or 3 as for a search) and four files.
pub fn cases(part: usize) -> Vec<u8> {
    let mut out = Vec::new();
    if part == 1 {
        strings(&mut out);
        shapes(&mut out);
        sizes(&mut out);
        order(&mut out);
        barred(&mut out);
    } else {
        by_chance(&mut out);
    }
    out
}

/// The smallest sound packet.
pub fn least() -> Files {
    ["(rules)", "(top)", "(terms)", "(top)"].map(plain)
}

/// Document 01's base packet B.
pub fn base() -> Files {
    [
        plain("(rules (all (imp (atom shut (v 0)) (atom dry (v 0)))))"),
        plain("(imp (atom shut (f p7)) (atom dry (f p7)))"),
        plain("(terms (f p7))"),
        plain("(imp (use 0 (0) (use 1 ())))"),
    ]
}

fn case(out: &mut Vec<u8>, read: usize, files: &Files) {
    put(out, read.to_string().as_bytes());
    files.iter().for_each(|file| put(out, file));
}

/// The least packet with another file in one place, all four read.
fn with(out: &mut Vec<u8>, kind: Kind, file: Vec<u8>) {
    let mut files = least();
    files[kind as usize - 1] = file;
    case(out, 4, &files);
}

/// Names and numbers in each place that takes one.
fn strings(out: &mut Vec<u8>) {
    case(out, 4, &base());
    let named = [
        (Kind::Rules, "(rules (atom ~))"),
        (Kind::Rules, "(rules (imp (top) (atom p (f ~ (f a)))))"),
        (Kind::Goal, "(atom ~)"),
        (Kind::Goal, "(atom p (f a) (f ~))"),
        (Kind::Terms, "(terms (f a (f ~)))"),
        (Kind::Strip, "(use 0 (~))"),
    ];
    for (kind, file) in named {
        for name in damage::names() {
            let mut spelled = Vec::new();
            put(&mut spelled, &name);
            with(out, kind, replaced(&plain(file), &spelled));
        }
    }
    let numbered = [
        (Kind::Rules, "(rules (all (atom p (v ~))))"),
        (Kind::Rules, "(rules (atom p (e ~)))"),
        (Kind::Goal, "(some (imp (atom p (v ~)) (top)))"),
        (Kind::Goal, "(atom p (f g (e ~)))"),
        (Kind::Terms, "(terms (f a) (e ~))"),
        (Kind::Terms, "(terms (f g (e 1) (e ~)))"),
        (Kind::Terms, "(terms (v ~))"),
        (Kind::Strip, "(some ~ (top))"),
        (Kind::Strip, "(use ~ ())"),
        (Kind::Strip, "(use 0 (0 ~ l) (top))"),
    ];
    for (kind, file) in numbered {
        for number in NUMBERS {
            with(out, kind, plain(&file.replace('~', number)));
        }
    }
}

/// The first `0:` of the file replaced.
fn replaced(file: &[u8], by: &[u8]) -> Vec<u8> {
    let at = file.windows(2).position(|two| two == b"0:").expect("a string of no octets");
    [&file[..at], by, &file[at + 2..]].concat()
}

/// Each word with each list of parts in each place.
fn shapes(out: &mut Vec<u8>) {
    let parts = [
        "",
        "p",
        "0",
        "p (f a)",
        "0 (f a)",
        "(top)",
        "(top) (top)",
        "(atom p)",
        "(atom p) (atom p)",
        "(top) (top) (top)",
        "0 (top)",
        "0 ()",
        "0 (l r 0) (top)",
        "0 () (top) (top)",
        "()",
        "(all (atom p)) (or (atom p) (top))",
    ];
    for word in WORDS {
        for part in parts {
            let list = format!("({word} {part})");
            with(out, Kind::Rules, plain(&format!("(rules {list})")));
            with(out, Kind::Rules, plain(&list));
            with(out, Kind::Goal, plain(&list));
            with(out, Kind::Terms, plain(&format!("(terms {list})")));
            with(out, Kind::Terms, plain(&list));
            with(out, Kind::Strip, plain(&list));
        }
    }
}

/// Bytes, levels and members at the limit and one above, in each file; and the least files of all.
fn sizes(out: &mut Vec<u8>) {
    for kind in KINDS {
        for bytes in [16_384, 16_385] {
            with(out, kind, of_bytes(kind, bytes));
        }
        for levels in [63, 64, 65, 66] {
            with(out, kind, of_levels(kind, levels));
        }
        for file in
            [&b""[..], b"01:a", b"1:a", b"()", b"(", b"(5:rules", b"(3:top)\n", b"[1:a]1:b", b"(3:top[1:a])", b"(0:)"]
        {
            with(out, kind, file.to_vec());
        }
        with(out, kind, vec![b'('; 65]);
    }
    for kind in [Kind::Rules, Kind::Terms] {
        for members in [0, 1, 255, 256, 257, 300] {
            with(out, kind, plain(&of_members(kind, members)));
        }
    }
}

/// Several faults at once, in one file and in several.
fn order(out: &mut Vec<u8>) {
    for (kind, barred, bad) in [(Kind::Rules, "(atom p (v 0))", "(nor)"), (Kind::Terms, "(e 0)", "(v)")] {
        for members in [255, 256, 257] {
            let many = of_members(kind, members);
            let inside = &many[..many.len() - 1];
            with(out, kind, plain(&format!("{inside}{barred})")));
            with(out, kind, plain(&format!("{inside}{bad})")));
            with(out, kind, plain(&format!("{inside}{barred}{bad})")));
            with(out, kind, [&plain(&many)[..], b"1"].concat());
        }
    }
    let faults: [[Vec<u8>; 4]; 5] = [
        KINDS.map(|kind| if kind == Kind::Goal { of_bytes(kind, 16_385) } else { b"(".to_vec() }),
        KINDS.map(|_| b"(3:top".to_vec()),
        KINDS.map(|kind| of_levels(kind, 65)),
        KINDS.map(|_| b"(3:nor)".to_vec()),
        ["(rules (atom p (v 0)))", "(atom p (e 1))", "(terms (v 0))", "(e 1)"].map(plain),
    ];
    for first in 0..5 {
        for second in 0..5 {
            for (one, other) in [(0, 1), (1, 2), (2, 3), (0, 3), (1, 3)] {
                let mut files = least();
                files[one].clone_from(&faults[first][one]);
                files[other].clone_from(&faults[second][other]);
                let large = files.iter().any(|file| file.len() > 16_384);
                if !large || first == second || first + second == 4 {
                    case(out, 4, &files);
                }
                if !large {
                    case(out, 3, &files);
                }
            }
        }
    }
}

/// Variables at, below and above the number of quantifiers around them, across every connective.
fn barred(out: &mut Vec<u8>) {
    let goals = [
        "(all (imp (atom p (v ~)) (top)))",
        "(all (imp (all (atom p (v ~))) (atom q (v 0))))",
        "(all (imp (all (imp (some (atom p (v ~))) (atom q (v 1)))) (atom q (v 0))))",
        "(and (all (atom p (v 0))) (atom p (f g (v ~))))",
        "(or (atom p (f g (v ~))) (all (atom p (v 0))))",
        "(some (all (some (and (top) (atom all (f some (v 2)) (f v (v ~)))))))",
        "(imp (and (all (atom p (v 0))) (atom p (v ~))) (top))",
    ];
    for goal in goals {
        for n in 0..5 {
            let goal = goal.replace('~', &n.to_string());
            with(out, Kind::Goal, plain(&goal));
            with(out, Kind::Rules, plain(&format!("(rules (all (imp {goal} (atom p (v 0)))) (all (atom p (v 0))))")));
            with(out, Kind::Rules, plain(&format!("(rules (all (atom p (v 0))) (imp {goal} (atom p)))")));
        }
    }
}

fn by_chance(out: &mut Vec<u8>) {
    let mut chance = Chance::new(5);
    for _ in 0..2_000 {
        let mut files = sound(&mut chance);
        if files.iter().map(Vec::len).sum::<usize>() > 700 {
            continue;
        }
        for _ in 0..chance.below(4) {
            let which = chance.below(4);
            if crate::carrier::judge(&files[which], 64) == crate::carrier::Carrier::Sound {
                files[which] = damage::file(&mut chance, &files[which]);
            }
        }
        let read = if chance.once_in(4) { 3 } else { 4 };
        case(out, read, &files);
    }
}

/// A packet that is read without a refusal.
fn sound(chance: &mut Chance) -> Files {
    if chance.once_in(8) {
        return base();
    }
    let closed = Scope { variables: 0, parameters: 0 };
    let (rules, terms, depth) = (chance.below(4), chance.below(4), chance.below(4));
    let rules: Vec<_> = (0..rules).map(|_| formulas::clause(chance, closed, depth)).collect();
    let open = Scope { variables: 0, parameters: 64 };
    let terms: Vec<_> = (0..terms).map(|_| formulas::term(chance, open, 2)).collect();
    let goal = formulas::goal(chance, closed, depth + 1);
    [spell::rules(&rules), spell::goal_file(&goal), spell::terms(&terms), spell::strip(&formulas::node(chance, depth))]
}
