//! From the tokens of a file that document 01's table allows to the tree that it spells. Every step here is allowed by
//! the table, so nothing is refused.

use std::rc::Rc;

use crate::carrier::{Placed, Token};
use crate::formula::{Atom, Clause, Goal, Term};
use crate::strip::{Node, Step, What};

pub struct Trees<'a> {
    tokens: &'a [Placed<'a>],
    at: usize,
}

impl<'a> Trees<'a> {
    pub fn new(tokens: &'a [Placed<'a>]) -> Trees<'a> {
        Trees { tokens, at: 0 }
    }

    fn next(&mut self) -> Placed<'a> {
        self.at += 1;
        self.tokens[self.at - 1]
    }

    fn closes(&self) -> bool {
        self.tokens[self.at].1 == Token::Close
    }

    fn text(&mut self) -> &'a str {
        match self.next().1 {
            Token::Text(octets) => std::str::from_utf8(octets).expect("words, names and numbers are ASCII"),
            _ => panic!("a string is due"),
        }
    }

    fn number(&mut self) -> usize {
        self.text().parse().expect("a number is due")
    }

    fn many<T>(&mut self, one: fn(&mut Self) -> T) -> Vec<T> {
        let mut all = Vec::new();
        while !self.closes() {
            all.push(one(self));
        }
        all
    }

    /// The clauses of a rule file.
    pub fn rules(&mut self) -> Vec<Clause> {
        self.at += 2;
        self.many(Self::clause)
    }

    /// The candidates of a terms file.
    pub fn terms(&mut self) -> Vec<Term> {
        self.at += 2;
        self.many(Self::term)
    }

    fn term(&mut self) -> Term {
        self.at += 1;
        let term = match self.text() {
            "v" => Term::Variable(self.number()),
            "e" => Term::Parameter(self.number()),
            _ => Term::Function(Rc::from(self.text()), self.many(Self::term).into()),
        };
        self.at += 1;
        term
    }

    /// After the word `atom`.
    fn atom_inside(&mut self) -> Atom {
        Atom { name: Rc::from(self.text()), terms: self.many(Self::term) }
    }

    pub fn goal(&mut self) -> Goal {
        self.at += 1;
        let goal = match self.text() {
            "top" => Goal::Top,
            "atom" => Goal::Atom(self.atom_inside()),
            "and" => Goal::And(Box::new(self.goal()), Box::new(self.goal())),
            "or" => Goal::Or(Box::new(self.goal()), Box::new(self.goal())),
            "some" => Goal::Some(Box::new(self.goal())),
            "all" => Goal::All(Box::new(self.goal())),
            _ => Goal::Imp(Box::new(self.clause()), Box::new(self.goal())),
        };
        self.at += 1;
        goal
    }

    fn clause(&mut self) -> Clause {
        self.at += 1;
        let clause = match self.text() {
            "atom" => Clause::Atom(self.atom_inside()),
            "imp" => {
                let goal = Box::new(self.goal());
                self.at += 2;
                let atom = self.atom_inside();
                self.at += 1;
                Clause::Imp(goal, atom)
            }
            "all" => Clause::All(Box::new(self.clause())),
            _ => Clause::And(Box::new(self.clause()), Box::new(self.clause())),
        };
        self.at += 1;
        clause
    }

    pub fn node(&mut self) -> Node {
        let (place, _) = self.next();
        let what = match self.text() {
            "top" => What::Top,
            "and" => What::And,
            "left" => What::Left,
            "right" => What::Right,
            "some" => What::Some(self.number()),
            "all" => What::All,
            "imp" => What::Imp,
            _ => What::Use(self.number(), self.path()),
        };
        let parts = self.many(Self::node);
        self.at += 1;
        Node { place, what, parts }
    }

    fn path(&mut self) -> Vec<Step> {
        self.at += 1;
        let steps = self.many(|trees| match trees.text() {
            "l" => Step::Left,
            "r" => Step::Right,
            number => Step::Number(number.parse().expect("a number is due")),
        });
        self.at += 1;
        steps
    }
}
