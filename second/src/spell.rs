//! From trees to the bytes of a file: the one canonical spelling of each, by document 01's table.

use crate::batch::put;
use crate::formula::{Atom, Clause, Goal, Term};
use crate::strip::{Node, Step, What};

/// A list whose first string is this word.
fn list(out: &mut Vec<u8>, word: &str, rest: impl FnOnce(&mut Vec<u8>)) {
    out.push(b'(');
    put(out, word.as_bytes());
    rest(out);
    out.push(b')');
}

fn number(out: &mut Vec<u8>, number: usize) {
    put(out, number.to_string().as_bytes());
}

pub fn rules(clauses: &[Clause]) -> Vec<u8> {
    let mut out = Vec::new();
    list(&mut out, "rules", |out| clauses.iter().for_each(|each| clause(out, each)));
    out
}

pub fn goal_file(the_goal: &Goal) -> Vec<u8> {
    let mut out = Vec::new();
    goal(&mut out, the_goal);
    out
}

pub fn terms(candidates: &[Term]) -> Vec<u8> {
    let mut out = Vec::new();
    list(&mut out, "terms", |out| candidates.iter().for_each(|each| term(out, each)));
    out
}

pub fn strip(root: &Node) -> Vec<u8> {
    let mut out = Vec::new();
    node(&mut out, root);
    out
}

fn term(out: &mut Vec<u8>, the_term: &Term) {
    match the_term {
        Term::Variable(n) => list(out, "v", |out| number(out, *n)),
        Term::Parameter(k) => list(out, "e", |out| number(out, *k)),
        Term::Function(name, inner) => list(out, "f", |out| {
            put(out, name.as_bytes());
            inner.iter().for_each(|each| term(out, each));
        }),
    }
}

fn atom(out: &mut Vec<u8>, the_atom: &Atom) {
    list(out, "atom", |out| {
        put(out, the_atom.name.as_bytes());
        the_atom.terms.iter().for_each(|each| term(out, each));
    });
}

fn goal(out: &mut Vec<u8>, the_goal: &Goal) {
    let two = |out: &mut Vec<u8>, word, left, right| {
        list(out, word, |out| {
            goal(out, left);
            goal(out, right);
        })
    };
    match the_goal {
        Goal::Top => list(out, "top", |_| ()),
        Goal::Atom(the_atom) => atom(out, the_atom),
        Goal::And(left, right) => two(out, "and", left, right),
        Goal::Or(left, right) => two(out, "or", left, right),
        Goal::Some(body) => list(out, "some", |out| goal(out, body)),
        Goal::All(body) => list(out, "all", |out| goal(out, body)),
        Goal::Imp(supposed, body) => list(out, "imp", |out| {
            clause(out, supposed);
            goal(out, body);
        }),
    }
}

fn clause(out: &mut Vec<u8>, the_clause: &Clause) {
    match the_clause {
        Clause::Atom(the_atom) => atom(out, the_atom),
        Clause::Imp(body, head) => list(out, "imp", |out| {
            goal(out, body);
            atom(out, head);
        }),
        Clause::All(body) => list(out, "all", |out| clause(out, body)),
        Clause::And(left, right) => list(out, "and", |out| {
            clause(out, left);
            clause(out, right);
        }),
    }
}

fn node(out: &mut Vec<u8>, the_node: &Node) {
    let word = match the_node.what {
        What::Top => "top",
        What::And => "and",
        What::Left => "left",
        What::Right => "right",
        What::Some(_) => "some",
        What::All => "all",
        What::Imp => "imp",
        What::Use(..) => "use",
    };
    list(out, word, |out| {
        match &the_node.what {
            What::Some(n) => number(out, *n),
            What::Use(k, steps) => {
                number(out, *k);
                path(out, steps);
            }
            _ => {}
        }
        the_node.parts.iter().for_each(|part| node(out, part));
    });
}

fn path(out: &mut Vec<u8>, steps: &[Step]) {
    out.push(b'(');
    for step in steps {
        match step {
            Step::Left => put(out, b"l"),
            Step::Right => put(out, b"r"),
            Step::Number(n) => number(out, *n),
        }
    }
    out.push(b')');
}
