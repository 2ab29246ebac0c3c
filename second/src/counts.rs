//! What the accepted strips of a judge case file, or the strips found by a search, make use of.

use crate::check::candidate;
use crate::expression::{text, Expression};
use crate::formula::Term;
use crate::strip::{Node, Step, What};
use crate::verdict::Packet;

/// What is looked for, in the order of the counts.
pub const USES: [&str; 16] = [
    "uses top",
    "uses and",
    "uses left",
    "uses right",
    "uses some",
    "uses all",
    "uses imp",
    "uses a clause without a part",
    "uses a clause with a part",
    "uses a supposed clause",
    "uses a clause number above 255",
    "uses l",
    "uses r",
    "opens two or more parameters",
    "names a candidate with a parameter",
    "has a v across an imp",
];

/// Which of these the packet's strip, which fits, makes use of.
pub fn uses(packet: &Packet, strip: &Node) -> [bool; 16] {
    let nodes = strip.all();
    let is = |what: What| nodes.iter().any(|node| node.what == what);
    let uses = |parts: usize| nodes.iter().any(|n| matches!(n.what, What::Use(..)) && n.parts.len() == parts);
    let clause = |from: usize| nodes.iter().any(|node| matches!(node.what, What::Use(k, _) if k >= from));
    let step = |step: Step| nodes.iter().any(|node| matches!(&node.what, What::Use(_, path) if path.contains(&step)));
    [
        is(What::Top),
        is(What::And),
        is(What::Left),
        is(What::Right),
        nodes.iter().any(|node| matches!(node.what, What::Some(_))),
        is(What::All),
        is(What::Imp),
        uses(0),
        uses(1),
        clause(packet.rules.len()),
        clause(256),
        step(Step::Left),
        step(Step::Right),
        open(strip) >= 2,
        named(strip).iter().any(|n| holds_parameter(*n, &packet.candidates)),
        across_imp(packet),
    ]
}

/// The highest number of open parameters in the strip.
fn open(node: &Node) -> usize {
    usize::from(node.what == What::All) + node.parts.iter().map(open).max().unwrap_or(0)
}

/// The numbers of the candidates that a strip names.
fn named(strip: &Node) -> Vec<usize> {
    let mut all = Vec::new();
    for node in strip.all() {
        match &node.what {
            What::Some(n) => all.push(*n),
            What::Use(_, path) => all.extend(path.iter().filter_map(|step| match step {
                Step::Number(n) => Some(*n),
                _ => None,
            })),
            _ => {}
        }
    }
    all
}

fn holds_parameter(n: usize, candidates: &[Term]) -> bool {
    candidate(n, usize::MAX, candidates).is_some_and(|term| term.highest() > 0)
}

/// Whether an `imp` stands between some `v` and its quantifier, in the rules or in the goal.
fn across_imp(packet: &Packet) -> bool {
    let rules = Expression::read(&crate::spell::rules(&packet.rules));
    let goal = Expression::read(&crate::spell::goal_file(&packet.goal));
    crosses(&rules, &mut Vec::new()) || crosses(&goal, &mut Vec::new())
}

/// The stack holds the lists around: true for a quantifier, false for an `imp`.
fn crosses(expression: &Expression, around: &mut Vec<bool>) -> bool {
    let Expression::List(members) = expression else { return false };
    if members[0] == text("v") {
        let Expression::Text(number) = &members[1] else { return false };
        let number = crate::batch::number(number).expect("a number");
        let quantifiers = around.iter().enumerate().rev().filter(|(_, quantifier)| **quantifier);
        let own = quantifiers.map(|(at, _)| at).nth(number).expect("a quantifier around it");
        return around[own..].contains(&false);
    }
    let added =
        [("all", true), ("some", true), ("imp", false)].iter().find(|(word, _)| members[0] == text(word)).map(|a| a.1);
    around.extend(added);
    let found = members.iter().any(|member| crosses(member, around));
    if added.is_some() {
        around.pop();
    }
    found
}
