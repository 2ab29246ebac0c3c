//! Terms, atoms, goals and clauses as trees ("What the desk judges" and the table of words of document 01), closed
//! terms put in for variables, and whether a term holds a parameter above a number.

use std::rc::Rc;

#[derive(Clone, Debug, PartialEq, Eq)]
pub enum Term {
    /// `v` n
    Variable(usize),
    /// `e` k
    Parameter(usize),
    /// `f` name terms
    Function(Rc<str>, Rc<[Term]>),
}

#[derive(Clone, Debug, PartialEq, Eq)]
pub struct Atom {
    pub name: Rc<str>,
    pub terms: Vec<Term>,
}

#[derive(Clone, Debug, PartialEq, Eq)]
pub enum Goal {
    Top,
    Atom(Atom),
    And(Box<Goal>, Box<Goal>),
    Or(Box<Goal>, Box<Goal>),
    Some(Box<Goal>),
    All(Box<Goal>),
    Imp(Box<Clause>, Box<Goal>),
}

#[derive(Clone, Debug, PartialEq, Eq)]
pub enum Clause {
    Atom(Atom),
    Imp(Box<Goal>, Atom),
    All(Box<Clause>),
    And(Box<Clause>, Box<Clause>),
}

impl Term {
    /// The highest parameter anywhere inside, or 0.
    pub fn highest(&self) -> usize {
        match self {
            Term::Variable(_) => 0,
            Term::Parameter(k) => *k,
            Term::Function(_, terms) => terms.iter().map(Term::highest).max().unwrap_or(0),
        }
    }
}

/// A change of the terms in a formula: given a term and the number of quantifiers crossed on the way to it, another
/// term to stand in its stead, or none to look inside it.
pub type Change<'a> = &'a mut dyn FnMut(&Term, usize) -> Option<Term>;

impl Term {
    pub fn change(&self, crossed: usize, change: Change) -> Term {
        if let Some(other) = change(self, crossed) {
            return other;
        }
        match self {
            Term::Function(name, terms) => {
                Term::Function(name.clone(), terms.iter().map(|term| term.change(crossed, change)).collect())
            }
            other => other.clone(),
        }
    }
}

impl Atom {
    pub fn change(&self, crossed: usize, change: Change) -> Atom {
        let terms = self.terms.iter().map(|term| term.change(crossed, change)).collect();
        Atom { name: self.name.clone(), terms }
    }
}

impl Goal {
    pub fn change(&self, crossed: usize, change: Change) -> Goal {
        let mut part = |goal: &Goal, more| Box::new(goal.change(crossed + more, change));
        match self {
            Goal::Top => Goal::Top,
            Goal::Atom(atom) => Goal::Atom(atom.change(crossed, change)),
            Goal::And(left, right) => Goal::And(part(left, 0), part(right, 0)),
            Goal::Or(left, right) => Goal::Or(part(left, 0), part(right, 0)),
            Goal::Some(body) => Goal::Some(part(body, 1)),
            Goal::All(body) => Goal::All(part(body, 1)),
            Goal::Imp(clause, goal) => {
                let clause = Box::new(clause.change(crossed, change));
                Goal::Imp(clause, Box::new(goal.change(crossed, change)))
            }
        }
    }

    /// This goal, the body of a quantifier, with a closed term in its variable's stead.
    pub fn with(&self, term: &Term) -> Goal {
        self.change(0, &mut |here, crossed| (*here == Term::Variable(crossed)).then(|| term.clone()))
    }
}

impl Clause {
    pub fn change(&self, crossed: usize, change: Change) -> Clause {
        match self {
            Clause::Atom(atom) => Clause::Atom(atom.change(crossed, change)),
            Clause::Imp(goal, atom) => {
                let goal = Box::new(goal.change(crossed, change));
                Clause::Imp(goal, atom.change(crossed, change))
            }
            Clause::All(body) => Clause::All(Box::new(body.change(crossed + 1, change))),
            Clause::And(left, right) => {
                let left = Box::new(left.change(crossed, change));
                Clause::And(left, Box::new(right.change(crossed, change)))
            }
        }
    }

    /// This clause, the body of an `all`, with a closed term in its variable's stead.
    pub fn with(&self, term: &Term) -> Clause {
        self.change(0, &mut |here, crossed| (*here == Term::Variable(crossed)).then(|| term.clone()))
    }
}
