//! The answers to a TPTP case file, one line for each case, and how often each answer was given.

use crate::answers::{add, number, refused, starting};
use crate::batch;
use crate::tptp::convert::{convert, lines};
use crate::tptp::deep;
use crate::tptp::grammar::{Formula, Line, Term};

/// `written LENGTH LENGTH RULES GOAL` or `refused NUMBER 1 0` for each TPTP case.
pub fn answers(bytes: &[u8]) -> Result<Vec<String>, String> {
    let cases = batch::cases(bytes, 3)?;
    deep(|| cases.iter().map(|case| Ok(line(case[0], number(case[1])?, number(case[2])?))).collect())
}

/// The line for a text and two buffers.
pub fn line(text: &[u8], rules_size: usize, goal_size: usize) -> String {
    match convert(text, rules_size, goal_size) {
        Ok((rules, goal)) => {
            let (r, g) = (String::from_utf8_lossy(&rules), String::from_utf8_lossy(&goal));
            format!("written {} {} {r} {g}", rules.len(), goal.len())
        }
        Err(refusal) => refused(refusal, true),
    }
}

/// How often each answer was given, and how many of the texts that are written have what is looked for.
pub fn counts(bytes: &[u8]) -> Result<Vec<(String, usize)>, String> {
    let answers = answers(bytes)?;
    let words =
        ["written", "refused 1 1", "refused 12 1", "refused 13 1", "refused 6 1", "refused 3 1", "refused 10 1"];
    let mut counts: Vec<_> = words.iter().map(|word| (word.to_string(), starting(&answers, word))).collect();
    let mut held = [0; HELD.len()];
    let cases = batch::cases(bytes, 3)?;
    deep(|| {
        for (case, answer) in cases.iter().zip(&answers) {
            if answer.starts_with("written") {
                add(&mut held, &holds(case[0], &lines(case[0]).expect("sound")));
            }
        }
    });
    counts.extend(HELD.iter().map(|what| format!("written with {what}")).zip(held));
    counts.push(("texts".to_string(), answers.len()));
    Ok(counts)
}

/// What a text that is written may have.
const HELD: [&str; 12] = [
    "a comment",
    "no axiom",
    "the conjecture before an axiom",
    "a chain of three or more by &",
    "a chain of three or more by |",
    "=>",
    "two variables in a list",
    "a variable bound twice",
    "a variable that nothing uses",
    "a function of terms",
    "! and ?",
    "$true",
];

/// Which of these it has.
fn holds(text: &[u8], lines: &[Line]) -> [bool; HELD.len()] {
    let mut parts = Vec::new();
    lines.iter().for_each(|line| gather(&line.formula, &mut parts));
    let any = |is: &dyn Fn(&Formula) -> bool| parts.iter().any(|part| is(part));
    let asked = lines.iter().position(|line| line.role.as_deref() == Some("conjecture"));
    let repeats = |names: &[String]| (1..names.len()).any(|n| names[..n].contains(&names[n]));
    [
        text.contains(&b'%') || text.windows(2).any(|two| two == b"/*"),
        lines.len() == 1,
        asked.is_some_and(|at| at + 1 < lines.len()),
        any(&|part| matches!(part, Formula::And(members) if members.len() > 2)),
        any(&|part| matches!(part, Formula::Or(members) if members.len() > 2)),
        any(&|part| matches!(part, Formula::Implies(..))),
        any(&|part| matches!(part, Formula::All(names, _) | Formula::Some(names, _) if names.len() > 1)),
        any(&|part| matches!(part, Formula::All(names, _) | Formula::Some(names, _) if repeats(names))),
        any(&|part| matches!(part, Formula::All(names, body) | Formula::Some(names, body) if !uses(body, &names[0]))),
        any(
            &|part| matches!(part, Formula::Atom(_, terms) if terms.iter().any(|t| matches!(t, Term::Function(_, inner) if !inner.is_empty()))),
        ),
        any(&|part| matches!(part, Formula::All(..))) && any(&|part| matches!(part, Formula::Some(..))),
        any(&|part| *part == Formula::True),
    ]
}

/// A formula and all formulas in it.
fn gather<'a>(formula: &'a Formula, parts: &mut Vec<&'a Formula>) {
    parts.push(formula);
    match formula {
        Formula::And(members) | Formula::Or(members) => members.iter().for_each(|member| gather(member, parts)),
        Formula::Implies(left, right) => [left, right].iter().for_each(|part| gather(part, parts)),
        Formula::All(_, body) | Formula::Some(_, body) => gather(body, parts),
        Formula::True | Formula::Atom(..) | Formula::Outside => {}
    }
}

/// Whether a variable of this name stands in the formula.
fn uses(formula: &Formula, name: &str) -> bool {
    fn within(term: &Term, name: &str) -> bool {
        match term {
            Term::Variable(it) => it == name,
            Term::Function(_, terms) => terms.iter().any(|each| within(each, name)),
            Term::Outside => false,
        }
    }
    let mut parts = Vec::new();
    gather(formula, &mut parts);
    parts.iter().any(|part| matches!(part, Formula::Atom(_, terms) if terms.iter().any(|each| within(each, name))))
}
