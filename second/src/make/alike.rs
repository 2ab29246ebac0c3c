//! Search cases whose names the search's numbers do not tell apart (`names`): atoms that hold no parameter fall on the same
//! slot of the table, at least those with as many arguments, and any rule may serve them, until they are compared in full.
//! Some of the other searches renamed, small books of the kinds that are measured (chains, grids, suppositions, many
//! rules, variables of a body alone), and books by chance.

use crate::chance::Chance;
use crate::expression::plain;
use crate::make::judging::spelled;
use crate::make::names::renamed;
use crate::make::searching::Three;
use crate::make::{proofs, wanted};
use crate::verdict::{search, Files, HEIGHT, ROOM};

/// No case here takes more looks than this, so that a plain search answers all of them soon.
const LOOKS: u64 = 100_000;

/// Every so many of the other searches are taken.
const EVERY: usize = 12;

pub fn searches() -> Vec<wanted::Asked> {
    let others = [wanted::searches(), wanted::matched()].concat();
    let mut all: Vec<wanted::Asked> = others.into_iter().step_by(EVERY).filter(few).collect();
    for packet in [ways(), supposed_in_turn(), supposed_at_once(), many_rules(), by_chance()].concat() {
        all.extend(around(&packet));
    }
    let renamed = |(n, (files, height, size)): (usize, wanted::Asked)| Some((renamed(&files, n % 2)?, height, size));
    all.into_iter().enumerate().filter_map(renamed).collect()
}

/// Whether a plain search answers within the looks.
fn few((files, height, size): &wanted::Asked) -> bool {
    let [rules, goal, terms] = files;
    search(Files { rules, goal, terms }, *height, *size, ROOM, LOOKS).is_ok()
}

/// A packet at the heights around the least one at which something is found; where there is none, at the last two that
/// take no more than the looks.
fn around(packet: &Three) -> Vec<wanted::Asked> {
    let [rules, goal, terms] = packet;
    let (mut least, mut last) = (0, 0);
    for height in 0..=HEIGHT {
        let Ok(answer) = search(Files { rules, goal, terms }, height, 16_384, ROOM, LOOKS) else { break };
        (least, last) = (height, height);
        if answer.is_ok() {
            last = HEIGHT.min(height + 1);
            break;
        }
    }
    let heights = least.saturating_sub(1)..=last;
    heights.map(|height| (packet.clone(), height, 16_384)).filter(few).collect()
}

/// Ways along a chain, round a ring and through a grid, and two steps at once by a variable of the body alone.
fn ways() -> Vec<Three> {
    let chain: Vec<(usize, usize)> = (0..4).map(|n| (n, n + 1)).collect();
    let ring: Vec<(usize, usize)> = (0..4).map(|n| (n, (n + 1) % 4)).collect();
    let grid = vec![(0, 1), (1, 2), (0, 3), (1, 4), (2, 5), (3, 4), (4, 5)];
    let rules = [
        "(all (imp (top) (atom way (v 0) (v 0)))) (all (all (imp (some (and (atom step (v 2) (v 0)) (atom way (v 0) (v 1)))) (atom way (v 1) (v 0)))))",
        "(all (all (imp (atom step (v 1) (v 0)) (atom way (v 1) (v 0))))) (all (all (all (imp (and (atom step (v 2) (v 0)) (atom way (v 0) (v 1))) (atom way (v 2) (v 1))))))",
        "(all (all (all (imp (and (atom step (v 2) (v 1)) (atom step (v 1) (v 0))) (atom way (v 2) (v 0))))))",
    ];
    let goals = [
        "(atom way (f c0) (f c3))",
        "(atom way (f c4) (f c0))",
        "(some (and (atom way (f c1) (v 0)) (atom end (v 0))))",
        "(imp (atom step (f c2) (f c0)) (atom way (f c2) (f c1)))",
        "(all (imp (atom step (f c2) (v 0)) (some (atom way (v 0) (v 1)))))",
    ];
    let mut all = Vec::new();
    for steps in [chain, ring, grid] {
        let facts: String = steps.iter().map(|(from, to)| format!("(atom step (f c{from}) (f c{to}))")).collect();
        for rules in rules {
            for goal in goals {
                let rules = format!("(rules {facts} {rules} (atom end (f c3)))");
                let terms = "(terms (f c0) (e 1) (f c1) (f c2) (f c1) (f c3) (f c4) (f c5))";
                all.push([&rules, goal, terms].map(plain));
            }
        }
    }
    all
}

/// The same goal under one clause and then under another, as many being at hand both times: what was found under the
/// first says nothing under the second.
fn supposed_in_turn() -> Vec<Three> {
    let rules = "(rules (imp (atom a) (atom p)) (imp (atom b) (atom q)) (imp (imp (atom a) (atom q)) (atom s)) (imp (imp (atom b) (atom q)) (atom t)))";
    let mut all = Vec::new();
    for goal in ["(atom p)", "(or (atom p) (atom q))", "(or (atom s) (or (atom t) (atom p)))"] {
        for turns in 0..8 {
            let [x, y, z] = [1, 2, 4].map(|bit| if turns & bit == 0 { "(atom a)" } else { "(atom b)" });
            let apart = format!("(and (imp {x} {goal}) (and (imp {y} {goal}) (imp {z} {goal})))");
            let inside = format!("(or (imp {x} (and (imp {y} {goal}) (imp {z} {goal}))) (imp {y} {goal}))");
            all.extend([apart, inside].map(|goal| [rules, &goal, "(terms)"].map(plain)));
        }
    }
    all
}

/// Chains of supposed clauses, all at hand at once, from the first to the last and the other way round, with and
/// without the fact that they start from.
fn supposed_at_once() -> Vec<Three> {
    let mut all = Vec::new();
    for many in [2, 5, 9] {
        let mut links: Vec<String> = (0..many).map(|n| format!("(imp (atom p{n}) (atom p{}))", n + 1)).collect();
        for fact in ["(atom p0)", "(atom q)", "(all (atom r (v 0)))"] {
            links.push(fact.to_string());
            for _ in 0..2 {
                links.reverse();
                let supposed: String = links.iter().map(|clause| format!("(imp {clause} ")).collect();
                let goal = format!("{supposed} (atom p{many}) {}", ")".repeat(links.len()));
                all.push(["(rules (imp (some (atom r (v 0))) (atom p0)))", &goal, "(terms (f a))"].map(plain));
            }
            links.pop();
        }
    }
    all
}

/// Many rules without variables, by chance, over a few predicates.
fn many_rules() -> Vec<Three> {
    let mut chance = Chance::new(31);
    let mut all = Vec::new();
    for _ in 0..12 {
        let mut atom = || match chance.below(9) {
            n @ 0..=5 => format!("(atom p{n})"),
            n => format!("(atom r (f c{n}))"),
        };
        let mut rules = format!("(rules {}", atom());
        for _ in 0..10 {
            rules += &format!("(imp (and {} {}) {}) (imp {} {})", atom(), atom(), atom(), atom(), atom());
        }
        rules += ")";
        all.push([&rules, &format!("(or (and {} {}) {})", atom(), atom(), atom()), "(terms)"].map(plain));
    }
    all
}

/// Small books by chance, each with a goal that has a proof.
fn by_chance() -> Vec<Three> {
    let mut chance = Chance::new(32);
    let mut all = Vec::new();
    while all.len() < 60 {
        let (packet, strip) = proofs::packet(&mut chance);
        let [rules, goal, terms, _] = spelled(&packet, &strip);
        if strip.nodes() >= 4 && rules.len() + goal.len() <= 400 {
            all.push([rules, goal, terms]);
        }
    }
    all
}
