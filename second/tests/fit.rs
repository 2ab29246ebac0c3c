//! The open points of "When a strip fits" and "Which strip the search writes", and what every made case must keep to.

use second::expression::plain;
use second::verdict::{judge, search, Files, ROOM};

/// `accepted` height nodes, or `refused` number place.
fn on(rules: &str, goal: &str, terms: &str, strip: &str) -> String {
    let files = [rules, goal, terms, strip].map(plain);
    let line = second::answers::judge_line(&files.each_ref().map(Vec::as_slice), false);
    line.replace("refused 7 4", "misfit")
}

fn found(rules: &str, goal: &str, terms: &str, height: usize) -> Option<Vec<u8>> {
    let [rules, goal, terms] = [rules, goal, terms].map(plain);
    let files = Files { rules: &rules, goal: &goal, terms: &terms };
    search(files, height, 16_384, ROOM, u64::MAX).unwrap().ok().map(|(_, strip)| strip)
}

#[test]
fn a_supposed_clause_is_one_clause() {
    let goal = "(imp (and (atom p) (atom q)) (imp (atom r) (atom q)))";
    assert_eq!(on("(rules (atom s))", goal, "(terms)", "(imp (imp (use 1 (r))))"), "accepted 3 3");
    assert_eq!(on("(rules (atom s))", goal, "(terms)", "(imp (imp (use 2 ())))"), "misfit 12");
    let many = format!("(rules {})", "(atom q)".repeat(256));
    assert_eq!(on(&many, "(imp (atom p) (atom p))", "(terms)", "(imp (use 256 ()))"), "accepted 2 2");
}

#[test]
fn the_parameters_open_at_the_own_place() {
    let rules = "(rules (all (atom r (v 0))))";
    let goal = "(and (all (atom r (v 0))) (all (all (atom r (v 0)))))";
    let strip = "(and (all (use 0 (0))) (all (all (use 0 (1)))))";
    assert_eq!(on(rules, goal, "(terms (e 1) (e 2))", strip), "accepted 4 6");
    assert_eq!(on(rules, goal, "(terms (e 2) (e 2))", strip), "misfit 12");
    assert_eq!(on(rules, "(all (some (top)))", "(terms (f g (e 2)))", "(all (some 0 (top)))"), "misfit 6");
    assert_eq!(
        on(rules, "(all (all (some (top))))", "(terms (f g (e 2)))", "(all (all (some 0 (top))))"),
        "accepted 4 4"
    );
}

#[test]
fn third_parts_and_paths() {
    let rules = "(rules (imp (top) (atom p)) (atom q) (all (atom r (v 0))))";
    assert_eq!(on(rules, "(atom p)", "(terms)", "(use 0 () (top))"), "accepted 2 2");
    assert_eq!(on(rules, "(atom p)", "(terms)", "(use 0 ())"), "misfit 0");
    assert_eq!(on(rules, "(atom q)", "(terms)", "(use 1 () (top))"), "misfit 0");
    assert_eq!(on(rules, "(atom q)", "(terms)", "(use 1 (0))"), "misfit 0");
    assert_eq!(on(rules, "(atom r (f a))", "(terms (f a))", "(use 2 (0))"), "accepted 1 1");
    assert_eq!(on(rules, "(atom r (f a))", "(terms (f a))", "(use 2 (1))"), "misfit 0");
    assert_eq!(on(rules, "(atom r (f a))", "(terms (f a))", "(use 2 ())"), "misfit 0");
    assert_eq!(on(rules, "(atom r (f b))", "(terms (f a))", "(use 2 (0))"), "misfit 0");
    assert_eq!(
        on("(rules (all (atom r (v 0) (v 0))))", "(atom r (f a) (f b))", "(terms (f a))", "(use 0 (0))"),
        "misfit 0"
    );
}

#[test]
fn equality_is_of_terms() {
    let rules = "(rules (all (all (atom r (v 0) (v 1)))))";
    let goal = "(all (some (atom r (v 0) (v 1))))";
    assert_eq!(on(rules, goal, "(terms (e 1) (e 1))", "(all (some 0 (use 0 (1 0))))"), "accepted 3 3");
    assert_eq!(on("(rules (atom p))", "(atom p (f a))", "(terms)", "(use 0 ())"), "misfit 0");
}

/// 60 lists in the formula and 63 in the candidate.
#[test]
fn terms_nested_123_deep() {
    let nest = |times: usize, inside: &str| "(f g ".repeat(times) + inside + &")".repeat(times);
    let rules = format!("(rules (all (atom p {})))", nest(60, "(v 0)"));
    let terms = format!("(terms {} {} {})", nest(62, "(f a)"), nest(61, "(f a)"), nest(62, "(f b)"));
    let fits = |more, n: usize, m: usize| {
        on(&rules, &format!("(some (atom p {}))", nest(more, "(v 0)")), &terms, &format!("(some {n} (use 0 ({m})))"))
    };
    assert_eq!(fits(60, 0, 0), "accepted 2 2");
    assert_eq!(fits(60, 0, 1), "misfit 10");
    assert_eq!(fits(60, 0, 2), "misfit 10");
    assert_eq!(fits(61, 1, 0), "accepted 2 2");
    assert_eq!(fits(61, 1, 2), "misfit 10");
    assert_eq!(fits(59, 0, 1), "accepted 2 2");
}

#[test]
fn the_first_and_not_the_shortest() {
    let rules = "(rules (imp (top) (atom p)) (atom p))";
    assert_eq!(found(rules, "(atom p)", "(terms)", 1), Some(plain("(use 1 ())")));
    assert_eq!(found(rules, "(atom p)", "(terms)", 2), Some(plain("(use 0 () (top))")));
    assert_eq!(found(rules, "(or (atom p) (top))", "(terms)", 1), None);
    assert_eq!(found("(rules)", "(or (atom p) (top))", "(terms)", 2), Some(plain("(right (top))")));
    let rules = "(rules (all (and (atom p (v 0)) (atom p (f a)))))";
    assert_eq!(found(rules, "(atom p (f a))", "(terms (f b) (f a) (f a))", 1), Some(plain("(use 0 (0 r))")));
    assert_eq!(found("(rules (atom p))", "(atom p)", "(terms)", 0), None);
}

/// Each strip found is accepted, with the same height and nodes.
#[test]
fn what_is_found_is_accepted() {
    let bytes: Vec<u8> = (1..=second::make::searching::PARTS).flat_map(second::make::searching::cases).collect();
    for case in second::batch::cases(&bytes, 5).unwrap() {
        let files = Files { rules: case[0], goal: case[1], terms: case[2] };
        let height = second::batch::number(case[3]).unwrap();
        if let Ok((node, strip)) = search(files, height, 16_384, ROOM, u64::MAX).unwrap() {
            let judged = judge(files, &strip, ROOM).unwrap();
            assert_eq!((judged.height(), judged.nodes()), (node.height(), node.nodes()));
            assert!(node.height() <= height);
        }
    }
}

/// Fronts and tails of an accepted strip are refused 2.
#[test]
fn no_front_and_no_tail_is_a_strip() {
    let [rules, goal, terms, strip] = second::make::packets::base();
    let files = Files { rules: &rules, goal: &goal, terms: &terms };
    for at in 0..strip.len() {
        for part in [&strip[..at], &strip[at + 1..]] {
            assert_eq!(judge(files, part, ROOM).map_err(|refusal| (refusal.number, refusal.file)).err(), Some((2, 4)));
        }
    }
}
