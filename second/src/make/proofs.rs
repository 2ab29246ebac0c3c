//! Goals made together with a strip that fits them: each is built from its proof, from the leaves down, and a
//! quantifier is made by putting a variable where a candidate or a parameter stood.

use crate::chance::Chance;
use crate::check::{candidate, misfit};
use crate::formula::{Clause, Goal, Term};
use crate::make::formulas::{self, Scope};
use crate::search::Search;
use crate::strip::{Node, Step, What};
use crate::verdict::Packet;

pub struct Maker<'a> {
    pub chance: &'a mut Chance,
    pub candidates: Vec<Term>,
}

/// A packet and a strip that is a proof of its goal.
pub fn packet(chance: &mut Chance) -> (Packet, Node) {
    let candidates: Vec<Term> = (0..chance.between(1, 5)).map(|_| some_candidate(chance)).collect();
    let depth = chance.between(1, 3);
    let closed = Scope { variables: 0, parameters: 0 };
    let rules: Vec<Clause> = (0..chance.below(5)).map(|_| formulas::clause(chance, closed, depth)).collect();
    let mut maker = Maker { chance, candidates };
    let depth = maker.chance.between(2, 6);
    let (goal, node) = maker.proof(&rules, 0, depth);
    let candidates = maker.candidates;
    assert_eq!(misfit(&node, &goal, &rules, &candidates), None);
    (Packet { rules, goal, candidates }, node)
}

/// A candidate, one in two with a parameter.
fn some_candidate(chance: &mut Chance) -> Term {
    let highest = *chance.of(&[0, 0, 1, 1, 2, 3]);
    match chance.below(3) {
        0 if highest > 0 => Term::Parameter(highest),
        _ => formulas::term(chance, Scope { variables: 0, parameters: highest }, 1),
    }
}

impl Maker<'_> {
    /// A closed goal and a strip that proves it at this place.
    fn proof(&mut self, clauses: &[Clause], open: usize, depth: usize) -> (Goal, Node) {
        let kind = if depth == 0 { 9 } else { self.chance.below(10) };
        match kind {
            0 => {
                let (left, first) = self.proof(clauses, open, depth - 1);
                let (right, second) = self.proof(clauses, open, depth / 2);
                (Goal::And(Box::new(left), Box::new(right)), Node::new(What::And, vec![first, second]))
            }
            1 => self.or(clauses, open, depth),
            2 | 3 => self.some(clauses, open, depth),
            4 | 5 => {
                let (goal, node) = self.proof(clauses, open + 1, depth - 1);
                let body = goal.change(0, &mut |here, crossed| {
                    (*here == Term::Parameter(open + 1)).then_some(Term::Variable(crossed))
                });
                (Goal::All(Box::new(body)), Node::new(What::All, vec![node]))
            }
            6 | 7 => {
                let size = self.chance.below(3);
                let supposed = formulas::clause(self.chance, Scope { variables: 0, parameters: open }, size);
                let more = [clauses, std::slice::from_ref(&supposed)].concat();
                let (goal, node) = self.proof(&more, open, depth - 1);
                (Goal::Imp(Box::new(supposed), Box::new(goal)), Node::new(What::Imp, vec![node]))
            }
            _ => (0..8)
                .find_map(|_| self.atom(clauses, open))
                .unwrap_or_else(|| (Goal::Top, Node::new(What::Top, Vec::new()))),
        }
    }

    fn or(&mut self, clauses: &[Clause], open: usize, depth: usize) -> (Goal, Node) {
        let (goal, node) = self.proof(clauses, open, depth - 1);
        let size = self.chance.below(2);
        let other = Box::new(formulas::goal(self.chance, Scope { variables: 0, parameters: open }, size));
        if self.chance.once_in(2) {
            (Goal::Or(Box::new(goal), other), Node::new(What::Left, vec![node]))
        } else {
            (Goal::Or(other, Box::new(goal)), Node::new(What::Right, vec![node]))
        }
    }

    fn some(&mut self, clauses: &[Clause], open: usize, depth: usize) -> (Goal, Node) {
        let (goal, node) = self.proof(clauses, open, depth - 1);
        let Some(n) = self.usable(open) else { return (goal, node) };
        let (term, chance) = (self.candidates[n].clone(), &mut *self.chance);
        let body = goal
            .change(0, &mut |here, crossed| (*here == term && !chance.once_in(3)).then_some(Term::Variable(crossed)));
        (Goal::Some(Box::new(body)), Node::new(What::Some(n), vec![node]))
    }

    /// A candidate that may be named with so many parameters open.
    fn usable(&mut self, open: usize) -> Option<usize> {
        let n = self.chance.below(self.candidates.len());
        candidate(n, open, &self.candidates).map(|_| n)
    }

    /// An atom that some clause at hand proves; of the bodies only short ones are tried.
    fn atom(&mut self, clauses: &[Clause], open: usize) -> Option<(Goal, Node)> {
        let k = clauses.len().checked_sub(1)? - self.chance.below(clauses.len().min(6));
        let mut clause = clauses[k].clone();
        let mut path = Vec::new();
        loop {
            let (step, next) = match clause {
                Clause::Atom(head) => return Some((Goal::Atom(head), Node::new(What::Use(k, path), Vec::new()))),
                Clause::Imp(body, head) => {
                    let proof = Search::new(&self.candidates, 300).goal(&body, clauses, open, 5).ok()??;
                    return Some((Goal::Atom(head), Node::new(What::Use(k, path), vec![proof])));
                }
                Clause::And(left, _) if self.chance.once_in(2) => (Step::Left, *left),
                Clause::And(_, right) => (Step::Right, *right),
                Clause::All(body) => {
                    let n = self.usable(open)?;
                    (Step::Number(n), body.with(&self.candidates[n]))
                }
            };
            path.push(step);
            clause = next;
        }
    }
}
