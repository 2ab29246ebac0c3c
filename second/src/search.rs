//! Which strip the search writes (document 01): at each place the options in order, the first that has a proof within
//! the height left. Nothing is remembered and nothing is skipped but the bodies of clauses whose head is another atom.

use crate::check::candidate;
use crate::formula::{Atom, Clause, Goal, Term};
use crate::strip::{Node, Step, What};

pub struct Search<'a> {
    candidates: &'a [Term],
    /// How many more places and clauses may be looked at. The makers of cases give few, the answers no end of them.
    left: u64,
}

/// The looks ran out: no answer.
#[derive(Clone, Copy, Debug, PartialEq, Eq)]
pub struct Unanswered;

type Proof = Result<Option<Node>, Unanswered>;

impl<'a> Search<'a> {
    pub fn new(candidates: &'a [Term], looks: u64) -> Search<'a> {
        Search { candidates, left: looks }
    }

    /// How many places and clauses were looked at, of so many that were given.
    pub fn looked(&self, looks: u64) -> u64 {
        looks - self.left
    }

    fn look(&mut self) -> Result<(), Unanswered> {
        self.left = self.left.checked_sub(1).ok_or(Unanswered)?;
        Ok(())
    }

    /// The first proof of this goal within the height, if there is one.
    pub fn goal(&mut self, goal: &Goal, clauses: &[Clause], open: usize, height: usize) -> Proof {
        self.look()?;
        if height == 0 {
            return Ok(None);
        }
        match goal {
            Goal::Top => Ok(Some(Node::new(What::Top, Vec::new()))),
            Goal::And(left, right) => {
                let Some(first) = self.goal(left, clauses, open, height - 1)? else { return Ok(None) };
                let second = self.goal(right, clauses, open, height - 1)?;
                Ok(second.map(|second| Node::new(What::And, vec![first, second])))
            }
            Goal::Or(left, right) => match self.part(What::Left, left, clauses, open, height)? {
                Some(found) => Ok(Some(found)),
                None => self.part(What::Right, right, clauses, open, height),
            },
            Goal::Some(body) => self.some(body, clauses, open, height),
            Goal::All(body) => {
                let proof = self.goal(&body.with(&Term::Parameter(open + 1)), clauses, open + 1, height - 1)?;
                Ok(proof.map(|proof| Node::new(What::All, vec![proof])))
            }
            Goal::Imp(supposed, goal) => {
                let more = [clauses, std::slice::from_ref(&**supposed)].concat();
                self.part(What::Imp, goal, &more, open, height)
            }
            Goal::Atom(atom) => self.atom(atom, clauses, open, height),
        }
    }

    /// A node of this kind over the first proof of its only part.
    fn part(&mut self, what: What, goal: &Goal, clauses: &[Clause], open: usize, height: usize) -> Proof {
        let proof = self.goal(goal, clauses, open, height - 1)?;
        Ok(proof.map(|proof| Node::new(what, vec![proof])))
    }

    fn some(&mut self, body: &Goal, clauses: &[Clause], open: usize, height: usize) -> Proof {
        for n in 0..self.candidates.len() {
            if let Some(term) = candidate(n, open, self.candidates) {
                let found = self.part(What::Some(n), &body.with(term), clauses, open, height)?;
                if found.is_some() {
                    return Ok(found);
                }
            }
        }
        Ok(None)
    }

    fn atom(&mut self, atom: &Atom, clauses: &[Clause], open: usize, height: usize) -> Proof {
        for (k, clause) in clauses.iter().enumerate() {
            let mut path = Vec::new();
            if let Some(parts) = self.path(clause, atom, &mut path, (clauses, open, height))? {
                return Ok(Some(Node::new(What::Use(k, path), parts)));
            }
        }
        Ok(None)
    }

    /// The parts over the first path from here that leads to a proof; that path is then added to the one given.
    fn path(
        &mut self,
        clause: &Clause,
        atom: &Atom,
        path: &mut Vec<Step>,
        place: (&[Clause], usize, usize),
    ) -> Result<Option<Vec<Node>>, Unanswered> {
        self.look()?;
        let (clauses, open, height) = place;
        let options: Vec<(Step, Clause)> = match clause {
            Clause::Atom(head) => return Ok((head == atom).then(Vec::new)),
            Clause::Imp(_, head) if head != atom => return Ok(None),
            Clause::Imp(body, _) => {
                let proof = self.goal(body, clauses, open, height - 1)?;
                return Ok(proof.map(|proof| vec![proof]));
            }
            Clause::And(left, right) => vec![(Step::Left, (**left).clone()), (Step::Right, (**right).clone())],
            Clause::All(body) => (0..self.candidates.len())
                .filter_map(|n| Some((Step::Number(n), body.with(candidate(n, open, self.candidates)?))))
                .collect(),
        };
        for (step, rest) in options {
            path.push(step);
            let found = self.path(&rest, atom, path, place)?;
            if found.is_some() {
                return Ok(found);
            }
            path.pop();
        }
        Ok(None)
    }
}
