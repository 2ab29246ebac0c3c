//! When a strip fits (document 01), on trees: the goal is handed down, closed terms are put in for variables at once,
//! so a place is a closed goal, closed clauses and the number of open parameters.

use crate::formula::{Clause, Goal, Term};
use crate::strip::{Node, Step, What};

/// The offset of the first node in file order that does not fit, if there is one.
pub fn misfit(root: &Node, goal: &Goal, rules: &[Clause], candidates: &[Term]) -> Option<usize> {
    first_misfit(root, goal, rules, 0, candidates).err()
}

fn first_misfit(node: &Node, goal: &Goal, clauses: &[Clause], open: usize, candidates: &[Term]) -> Result<(), usize> {
    let part = |number: usize, goal: &Goal| first_misfit(&node.parts[number], goal, clauses, open, candidates);
    match (&node.what, goal) {
        (What::Top, Goal::Top) => Ok(()),
        (What::And, Goal::And(left, right)) => part(0, left).and_then(|()| part(1, right)),
        (What::Left, Goal::Or(left, _)) => part(0, left),
        (What::Right, Goal::Or(_, right)) => part(0, right),
        (What::Some(n), Goal::Some(body)) => {
            let term = candidate(*n, open, candidates).ok_or(node.place)?;
            part(0, &body.with(term))
        }
        (What::All, Goal::All(body)) => {
            let goal = body.with(&Term::Parameter(open + 1));
            first_misfit(&node.parts[0], &goal, clauses, open + 1, candidates)
        }
        (What::Imp, Goal::Imp(supposed, goal)) => {
            let more = [clauses, std::slice::from_ref(&**supposed)].concat();
            first_misfit(&node.parts[0], goal, &more, open, candidates)
        }
        (What::Use(k, path), Goal::Atom(atom)) => {
            let clause = clauses.get(*k).ok_or(node.place)?;
            match (follow(clause, path, open, candidates), node.parts.len()) {
                (Some(Clause::Atom(head)), 0) if head == *atom => Ok(()),
                (Some(Clause::Imp(body, head)), 1) if head == *atom => part(0, &body),
                _ => Err(node.place),
            }
        }
        _ => Err(node.place),
    }
}

/// Candidate n, if it is there and holds no parameter above those open.
pub fn candidate(n: usize, open: usize, candidates: &[Term]) -> Option<&Term> {
    candidates.get(n).filter(|term| term.highest() <= open)
}

/// The clause that the path reaches, variables replaced; none if the path does not suit the clause.
fn follow(clause: &Clause, path: &[Step], open: usize, candidates: &[Term]) -> Option<Clause> {
    let Some((step, rest)) = path.split_first() else { return Some(clause.clone()) };
    match (clause, step) {
        (Clause::And(left, _), Step::Left) => follow(left, rest, open, candidates),
        (Clause::And(_, right), Step::Right) => follow(right, rest, open, candidates),
        (Clause::All(body), Step::Number(n)) => {
            let term = candidate(*n, open, candidates)?;
            follow(&body.with(term), rest, open, candidates)
        }
        _ => None,
    }
}
