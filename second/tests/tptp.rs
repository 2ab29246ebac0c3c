//! Document 02, One: the decisions and traps as DECISIONS lists them, and that the files written are read, and are true
//! in the same small structures as the text.

use second::batch;
use second::make::tptp::cases;
use second::refusals::packet;
use second::tptp::convert::{convert, lines};
use second::tptp::deep;
use second::tptp::grammar::Formula;
use second::tptp::truth::Structure;
use second::verdict::Files;

/// The refusal's number, or the goal file of a book of one conjecture.
fn goal(formula: &str) -> Result<String, u8> {
    text(&format!("fof(c,conjecture,{formula}).")).map(|(_, goal)| goal)
}

/// The same of one axiom: the rule in the rules file.
fn rule(formula: &str) -> Result<String, u8> {
    let book = text(&format!("fof(a,axiom,{formula}).fof(c,conjecture,$true)."));
    book.map(|(rules, _)| rules["(5:rules".len()..rules.len() - 1].to_string())
}

fn text(text: &str) -> Result<(String, String), u8> {
    let string = |bytes| String::from_utf8(bytes).unwrap();
    deep(|| convert(text.as_bytes(), 16_384, 16_384)).map(|(rules, goal)| (string(rules), string(goal))).map_err(
        |refusal| {
            assert_eq!((refusal.file, refusal.place), (1, 0));
            refusal.number
        },
    )
}

fn all(formulas: &[&str], goals: u8, rules: u8) {
    for formula in formulas {
        assert_eq!(goal(formula), Err(goals), "{formula}");
        assert_eq!(rule(formula), Err(rules), "{formula}");
    }
}

fn is(of: Result<String, u8>, plain: &str) {
    assert_eq!(of, Ok(String::from_utf8(second::expression::plain(plain)).unwrap()));
}

#[test]
fn what_the_grammar_does_not_allow() {
    all(&["p & q | r", "p & q => r", "p => q => r", "a <=> b <=> c", "! [] : p", "! [X:$i] : p(X)"], 12, 12);
    all(&["(a) = b", "p((a))", "p(q & r)", "X", "1", "\"d\"", "! = p", "p ~ | q", "([p] --> [q]) & r"], 12, 12);
    all(
        &["p(01)", "p(1.)", "p(.5)", "p(1/0)", "p(1e)", "$True", "$1", "''", "p/*/", "p/**/q", "p\0", "p %\r& q"],
        12,
        12,
    );
    for line in
        ["FOF(a,axiom,p).", "cnf(a,axiom,p).", "include('x').", "fof(a,Axiom,p).", "fof(a,axiom-1,p).", "/*", "x"]
    {
        assert_eq!(text(line), Err(12), "{line}");
    }
    assert_eq!(text("fof(a,axiom,p,x,y)."), Err(12));
    assert_eq!(text("fof(a,axiom,p,$thf(p))."), Err(12));
    assert_eq!(text("fof(a,plain,p).fof(b,conjecture,p & q | r)."), Err(12));
}

#[test]
fn what_is_sound_and_outside_the_part() {
    all(&["~ p", "p <= q", "p <=> q", "a = b", "a != b", "$false", "$true(a)", "p($true)", "$truex", "'p'"], 13, 13);
    all(&["isShut", "p(isShut)", "p(1)", "p(\"\")", "[p] --> [q]", "{} --> []", "(([] --> []))", "p(X)"], 13, 13);
    all(&["! [X] : p(X) => q(X)", "! [X] : p(X) & q(X)", "x01234567890123456789012345678901"], 13, 13);
    for line in ["", "% c", "fof(a,axiom,p).", "fof(a,lemma,p).", "fof(17,conjecture,p).", "fof('a',conjecture,p)."] {
        assert_eq!(text(line), Err(13), "{line}");
    }
    assert_eq!(text("fof(a,conjecture,p,x)."), Err(13));
    assert_eq!(text("fof(a,conjecture-x,p)."), Err(13));
    assert_eq!(text("fof(a,conjecture,p).fof(a,conjecture,p)."), Err(13));
}

#[test]
fn clauses_and_goals() {
    for formula in ["$true", "q & $true", "q | r", "? [X] : q(X)", "q => (r & t)", "q => (r => t)", "q => ! [X] : r(X)"]
    {
        assert_eq!(rule(formula), Err(13), "{formula}");
    }
    for formula in ["(p | q) => r", "$true => r", "(? [X] : p(X)) => r"] {
        assert_eq!(goal(formula), Err(13), "{formula}");
    }
    is(rule("$true => q"), "(imp (top) (atom q))");
    is(rule("! [X] : q(X) => r"), "(imp (all (atom q (v 0))) (atom r))");
    is(goal("! [X] : p(X) => q"), "(imp (all (atom p (v 0))) (atom q))");
    is(goal("p => (q => r)"), "(imp (atom p) (imp (atom q) (atom r)))");
}

#[test]
fn what_is_written() {
    is(goal("p & q & r"), "(and (and (atom p) (atom q)) (atom r))");
    is(goal("p & (q | r | s)"), "(and (atom p) (or (or (atom q) (atom r)) (atom s)))");
    is(goal("! [X,Y] : p(X,Y)"), "(all (all (atom p (v 1) (v 0))))");
    is(goal("? [X,X] : p(X)"), "(some (some (atom p (v 0))))");
    is(goal("! [X] : ((? [X] : p(X)) & q(X))"), "(all (and (some (atom p (v 0))) (atom q (v 0))))");
    is(goal("! [X] : ? [Y] : p(X)"), "(all (some (atom p (v 1))))");
    is(goal("p => ? [X] : q(X)"), "(imp (atom p) (some (atom q (v 0))))");
    is(goal("p/*c*/(a % c\n)"), "(atom p (f a))");
    let book = "fof(a,axiom,p).fof(b,conjecture,q).fof(a,axiom,! [X] : (shut(X) => dry(X))).";
    let rules = second::expression::plain("(rules (atom p) (all (imp (atom shut (v 0)) (atom dry (v 0)))))");
    assert_eq!(text(book), Ok((String::from_utf8(rules).unwrap(), "(4:atom1:q)".to_string())));
    assert_eq!(text("fof(b,conjecture,q)."), Ok(("(5:rules)".to_string(), "(4:atom1:q)".to_string())));
}

#[test]
fn nesting_as_deep_as_the_bytes_allow() {
    is(goal(&("(".repeat(8_000) + "p" + &")".repeat(8_000))), "(atom p)");
    assert_eq!(goal(&("(".repeat(8_000) + "p" + &")".repeat(8_001))), Err(12));
    assert_eq!(goal(&("~".repeat(16_000) + "p")), Err(13));
    assert_eq!(goal(&("p(".repeat(5_000) + "a" + &")".repeat(5_000))), Err(3));
    assert_eq!(goal(&("p(".repeat(5_000) + "X" + &")".repeat(5_000))), Err(13));
    assert_eq!(goal(&format!("![{}]:p(A)", vec!["A"; 8_000].join(","))), Err(3));
}

/// Every number of a case file is asked for and no case file is larger than the program's room.
#[test]
fn the_case_files() {
    for part in 1..=second::make::tptp::PARTS {
        let file = cases(part);
        assert!(file.len() <= 655_360, "part {part}: {} bytes", file.len());
        assert!(batch::cases(&file, 3).is_ok());
    }
}

/// How many times a formula's atoms may be looked at in a domain of this size; no more than a million.
fn looks(formula: &Formula, size: usize) -> usize {
    let times = |names: &[String]| size.saturating_pow(names.len() as u32);
    match formula {
        Formula::And(members) | Formula::Or(members) => members.iter().map(|member| looks(member, size)).sum(),
        Formula::Implies(left, right) => looks(left, size) + looks(right, size),
        Formula::All(names, body) | Formula::Some(names, body) => times(names).saturating_mul(looks(body, size)),
        _ => 1,
    }
    .min(1_000_000)
}

#[test]
fn the_files_are_read_and_true_in_the_same_structures() {
    let (mut held, mut failed) = (0, 0);
    for part in 1..=second::make::tptp::PARTS {
        for case in batch::cases(&cases(part), 3).unwrap() {
            deep(|| {
                let Ok((rules, goal)) = convert(case[0], 16_384, 16_384) else { return };
                let terms = b"(5:terms)";
                assert!(packet(&rules, &goal, terms, None).is_ok());
                let packet = Files { rules: &rules, goal: &goal, terms }.packet().unwrap();
                let lines = lines(case[0]).unwrap();
                let mut clauses = packet.rules.iter();
                for line in &lines {
                    let conjecture = line.role.as_deref() == Some("conjecture");
                    let clause = if conjecture { None } else { clauses.next() };
                    for (size, seed) in (0..12).map(|seed| (1 + seed as usize % 3, seed)) {
                        let structure = Structure { size, seed };
                        if looks(&line.formula, size) > 20_000 {
                            continue;
                        }
                        let named = structure.named(&line.formula, &mut Vec::new());
                        let written = match clause {
                            Some(clause) => structure.clause(clause, &mut Vec::new()),
                            None => structure.goal(&packet.goal, &mut Vec::new()),
                        };
                        assert_eq!(named, written, "{}", String::from_utf8_lossy(case[0]));
                        *(if named { &mut held } else { &mut failed }) += 1;
                    }
                }
                assert!(clauses.next().is_none());
            });
        }
    }
    assert!(held > 1_000 && failed > 1_000, "{held} {failed}");
}
