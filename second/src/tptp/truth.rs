//! Truth in a small finite structure: of a formula as the TPTP text has it, with its names, and of rules and goals as
//! document 01 has them, with their numbers. A symbol means something by its name and its number of arguments.

use crate::formula::{Atom, Clause, Goal, Term};
use crate::tptp::grammar;

/// A domain of the numbers below `size`; what the symbols mean is drawn from the seed.
#[derive(Clone, Copy, Debug)]
pub struct Structure {
    pub size: usize,
    pub seed: u64,
}

impl Structure {
    /// A number for this symbol with these arguments.
    fn drawn(&self, sort: u8, name: &str, arguments: &[usize]) -> u64 {
        let mut state = self.seed ^ 0xCBF2_9CE4_8422_2325;
        let count = arguments.len() as u64;
        let bytes = name.bytes().map(u64::from);
        for value in [u64::from(sort), count].into_iter().chain(bytes).chain(arguments.iter().map(|a| *a as u64 + 300))
        {
            state = (state ^ value).wrapping_mul(0x0000_0100_0000_01B3);
            state ^= state >> 29;
        }
        state.wrapping_mul(0x2545_F491_4F6C_DD1D) >> 33
    }

    fn function(&self, name: &str, arguments: &[usize]) -> usize {
        (self.drawn(b'f', name, arguments) % self.size as u64) as usize
    }

    fn predicate(&self, name: &str, arguments: &[usize]) -> bool {
        self.drawn(b'p', name, arguments) % 2 == 1
    }

    /// The value of a term with names; `around` holds what the variables stand for, the outermost first.
    fn named_term(&self, term: &grammar::Term, around: &[(String, usize)]) -> usize {
        match term {
            grammar::Term::Variable(name) => {
                around.iter().rev().find(|(it, _)| it == name).expect("a bound variable").1
            }
            grammar::Term::Function(name, terms) => {
                let values: Vec<_> = terms.iter().map(|each| self.named_term(each, around)).collect();
                self.function(name, &values)
            }
            grammar::Term::Outside => panic!("outside the part"),
        }
    }

    /// The truth of a formula of the part, with its names.
    pub fn named(&self, formula: &grammar::Formula, around: &mut Vec<(String, usize)>) -> bool {
        use grammar::Formula;
        match formula {
            Formula::True => true,
            Formula::Atom(name, terms) => {
                let values: Vec<_> = terms.iter().map(|each| self.named_term(each, around)).collect();
                self.predicate(name, &values)
            }
            Formula::And(members) => members.iter().all(|member| self.named(member, around)),
            Formula::Or(members) => members.iter().any(|member| self.named(member, around)),
            Formula::Implies(left, right) => !self.named(left, around) || self.named(right, around),
            Formula::All(names, body) => !self.reaches(names, body, around, false),
            Formula::Some(names, body) => self.reaches(names, body, around, true),
            Formula::Outside => panic!("outside the part"),
        }
    }

    /// Whether some elements for these variables make the body's truth what is sought.
    fn reaches(
        &self,
        names: &[String],
        body: &grammar::Formula,
        around: &mut Vec<(String, usize)>,
        sought: bool,
    ) -> bool {
        let Some((name, others)) = names.split_first() else { return self.named(body, around) == sought };
        (0..self.size).any(|element| {
            around.push((name.clone(), element));
            let reached = self.reaches(others, body, around, sought);
            around.pop();
            reached
        })
    }

    /// The value of a term of document 01; `around` holds what the variables stand for, the outermost first.
    fn term(&self, term: &Term, around: &[usize]) -> usize {
        match term {
            Term::Variable(n) => around[around.len() - 1 - n],
            Term::Function(name, terms) => {
                let values: Vec<_> = terms.iter().map(|each| self.term(each, around)).collect();
                self.function(name, &values)
            }
            Term::Parameter(_) => panic!("rules and goal hold no parameter"),
        }
    }

    fn atom(&self, atom: &Atom, around: &[usize]) -> bool {
        let values: Vec<_> = atom.terms.iter().map(|each| self.term(each, around)).collect();
        self.predicate(&atom.name, &values)
    }

    /// The truth of a goal.
    pub fn goal(&self, goal: &Goal, around: &mut Vec<usize>) -> bool {
        match goal {
            Goal::Top => true,
            Goal::Atom(atom) => self.atom(atom, around),
            Goal::And(left, right) => self.goal(left, around) && self.goal(right, around),
            Goal::Or(left, right) => self.goal(left, around) || self.goal(right, around),
            Goal::Some(body) => self.some(around, |around| self.goal(body, around)),
            Goal::All(body) => !self.some(around, |around| !self.goal(body, around)),
            Goal::Imp(supposed, body) => !self.clause(supposed, around) || self.goal(body, around),
        }
    }

    /// The truth of a clause.
    pub fn clause(&self, clause: &Clause, around: &mut Vec<usize>) -> bool {
        match clause {
            Clause::Atom(atom) => self.atom(atom, around),
            Clause::Imp(body, head) => !self.goal(body, around) || self.atom(head, around),
            Clause::All(body) => !self.some(around, |around| !self.clause(body, around)),
            Clause::And(left, right) => self.clause(left, around) && self.clause(right, around),
        }
    }

    fn some(&self, around: &mut Vec<usize>, holds: impl Fn(&mut Vec<usize>) -> bool) -> bool {
        (0..self.size).any(|element| {
            around.push(element);
            let held = holds(around);
            around.pop();
            held
        })
    }
}
