//! Terms, atoms, goals, clauses and strips by chance, built from document 01's table over a small signature.

use crate::chance::Chance;
use crate::formula::{Atom, Clause, Goal, Term};
use crate::strip::{Node, Step, What};

/// Predicates, each with its number of arguments. Some are words of the table or look as if they meant something.
const PREDICATES: [(&str, usize); 12] = [
    ("p", 0),
    ("q", 0),
    ("r", 1),
    ("r", 1),
    ("dry", 1),
    ("shut", 1),
    ("eq", 2),
    ("r", 2),
    ("not", 1),
    ("all", 1),
    ("is", 2),
    ("true", 0),
];

/// Functions, each with its number of arguments.
const FUNCTIONS: [(&str, usize); 6] = [("a", 0), ("b", 0), ("p7", 0), ("g", 1), ("h", 2), ("a", 1)];

/// What a term may hold: variables below `variables`, parameters from 1 to `parameters`.
#[derive(Clone, Copy)]
pub struct Scope {
    pub variables: usize,
    pub parameters: usize,
}

impl Scope {
    pub fn under(self) -> Scope {
        Scope { variables: self.variables + 1, ..self }
    }
}

pub fn term(chance: &mut Chance, scope: Scope, depth: usize) -> Term {
    match chance.below(4) {
        0 | 1 if scope.variables > 0 => Term::Variable(chance.below(scope.variables)),
        2 if scope.parameters > 0 => Term::Parameter(chance.between(1, scope.parameters)),
        _ => {
            let (name, count) = *chance.of(if depth == 0 { &FUNCTIONS[..3] } else { &FUNCTIONS });
            Term::Function(name.into(), (0..count).map(|_| term(chance, scope, depth.saturating_sub(1))).collect())
        }
    }
}

pub fn atom(chance: &mut Chance, scope: Scope) -> Atom {
    let (name, count) = *chance.of(&PREDICATES);
    let depth = chance.below(2);
    Atom { name: name.into(), terms: (0..count).map(|_| term(chance, scope, depth)).collect() }
}

pub fn goal(chance: &mut Chance, scope: Scope, depth: usize) -> Goal {
    if depth == 0 {
        return if chance.once_in(8) { Goal::Top } else { Goal::Atom(atom(chance, scope)) };
    }
    let part = |chance: &mut Chance, scope| Box::new(goal(chance, scope, depth - 1));
    match chance.below(7) {
        0 => Goal::And(part(chance, scope), part(chance, scope)),
        1 => Goal::Or(part(chance, scope), part(chance, scope)),
        2 => Goal::Some(part(chance, scope.under())),
        3 => Goal::All(part(chance, scope.under())),
        4 | 5 => Goal::Imp(Box::new(clause(chance, scope, depth - 1)), part(chance, scope)),
        _ => Goal::Atom(atom(chance, scope)),
    }
}

pub fn clause(chance: &mut Chance, scope: Scope, depth: usize) -> Clause {
    if depth == 0 {
        return Clause::Atom(atom(chance, scope));
    }
    let part = |chance: &mut Chance, scope| Box::new(clause(chance, scope, depth - 1));
    match chance.below(6) {
        0 => Clause::And(part(chance, scope), part(chance, scope)),
        1 | 2 => Clause::All(part(chance, scope.under())),
        3 | 4 => Clause::Imp(Box::new(goal(chance, scope, depth - 1)), atom(chance, scope)),
        _ => Clause::Atom(atom(chance, scope)),
    }
}

/// A strip of the table, whether or not it fits anything.
pub fn node(chance: &mut Chance, depth: usize) -> Node {
    let (what, parts) = match chance.below(if depth == 0 { 3 } else { 9 }) {
        0 => (What::Top, 0),
        1 | 2 => (What::Use(number(chance), path(chance)), 0),
        3 => (What::And, 2),
        4 => (What::Left, 1),
        5 => (What::Right, 1),
        6 => (What::Some(number(chance)), 1),
        7 => (if chance.once_in(2) { What::All } else { What::Imp }, 1),
        _ => (What::Use(number(chance), path(chance)), 1),
    };
    Node::new(what, (0..parts).map(|_| node(chance, depth - 1)).collect())
}

fn number(chance: &mut Chance) -> usize {
    *chance.of(&[0, 0, 1, 1, 2, 3, 4, 9, 10, 64, 255, 256, 999])
}

pub fn step(chance: &mut Chance) -> Step {
    match chance.below(4) {
        0 => Step::Left,
        1 => Step::Right,
        _ => Step::Number(number(chance)),
    }
}

fn path(chance: &mut Chance) -> Vec<Step> {
    (0..chance.below(4)).map(|_| step(chance)).collect()
}
