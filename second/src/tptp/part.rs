//! The part that is read (document 02, One): which lines fit document 01, and what they become. Chains group to the
//! left, variable names go, nothing is rewritten.

use std::rc::Rc;

use crate::formula;
use crate::table::is_name;
use crate::tptp::grammar::{Formula, Line, Term};

/// Rules and goal.
pub struct Book {
    pub rules: Vec<formula::Clause>,
    pub goal: formula::Goal,
}

/// The book that the lines are; none where a line does not fit, or the conjectures are not one.
pub fn book(lines: &[Line]) -> Option<Book> {
    let (mut rules, mut goals) = (Vec::new(), Vec::new());
    for line in lines {
        if line.annotated || !is_name(line.label.as_ref()?.as_bytes()) {
            return None;
        }
        match line.role.as_deref()? {
            "axiom" => rules.push(clause(&line.formula, &mut Vec::new())?),
            "conjecture" => goals.push(goal(&line.formula, &mut Vec::new())?),
            _ => return None,
        }
    }
    let goal = goals.pop().filter(|_| goals.is_empty())?;
    Some(Book { rules, goal })
}

/// The names that are bound, the outermost first.
type Bound = Vec<String>;

fn goal(the_formula: &Formula, bound: &mut Bound) -> Option<formula::Goal> {
    use formula::Goal;
    Some(match the_formula {
        Formula::True => Goal::Top,
        Formula::Atom(name, terms) => Goal::Atom(atom(name, terms, bound)?),
        Formula::And(members) => chain(members, |member| goal(member, bound), Goal::And)?,
        Formula::Or(members) => chain(members, |member| goal(member, bound), Goal::Or)?,
        Formula::Implies(left, right) => Goal::Imp(clause(left, bound)?.into(), goal(right, bound)?.into()),
        Formula::All(names, body) => quantified(names, bound, |bound| goal(body, bound), Goal::All)?,
        Formula::Some(names, body) => quantified(names, bound, |bound| goal(body, bound), Goal::Some)?,
        Formula::Outside => return None,
    })
}

fn clause(the_formula: &Formula, bound: &mut Bound) -> Option<formula::Clause> {
    use formula::Clause;
    Some(match the_formula {
        Formula::Atom(name, terms) => Clause::Atom(atom(name, terms, bound)?),
        Formula::And(members) => chain(members, |member| clause(member, bound), Clause::And)?,
        Formula::Implies(left, right) => {
            let Formula::Atom(name, terms) = &**right else { return None };
            Clause::Imp(goal(left, bound)?.into(), atom(name, terms, bound)?)
        }
        Formula::All(names, body) => quantified(names, bound, |bound| clause(body, bound), Clause::All)?,
        Formula::True | Formula::Or(_) | Formula::Some(..) | Formula::Outside => return None,
    })
}

/// A chain, grouped to the left.
fn chain<T>(
    members: &[Formula],
    mut one: impl FnMut(&Formula) -> Option<T>,
    both: fn(Box<T>, Box<T>) -> T,
) -> Option<T> {
    let mut left = one(&members[0])?;
    for member in &members[1..] {
        left = both(left.into(), one(member)?.into());
    }
    Some(left)
}

/// Nested quantifiers, the first variable outermost.
fn quantified<T>(
    names: &[String],
    bound: &mut Bound,
    body: impl FnOnce(&mut Bound) -> Option<T>,
    quantifier: fn(Box<T>) -> T,
) -> Option<T> {
    bound.extend_from_slice(names);
    let inside = body(bound);
    bound.truncate(bound.len() - names.len());
    Some(names.iter().fold(inside?, |inside, _| quantifier(inside.into())))
}

fn atom(name: &str, terms: &[Term], bound: &Bound) -> Option<formula::Atom> {
    let terms = terms.iter().map(|each| term(each, bound)).collect::<Option<_>>()?;
    is_name(name.as_bytes()).then(|| formula::Atom { name: Rc::from(name), terms })
}

fn term(the_term: &Term, bound: &Bound) -> Option<formula::Term> {
    match the_term {
        Term::Variable(name) => bound.iter().rev().position(|it| it == name).map(formula::Term::Variable),
        Term::Function(name, terms) => {
            let terms = terms.iter().map(|each| term(each, bound)).collect::<Option<Vec<_>>>()?;
            is_name(name.as_bytes()).then(|| formula::Term::Function(Rc::from(name.as_str()), terms.into()))
        }
        Term::Outside => None,
    }
}
