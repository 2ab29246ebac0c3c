//! Document 01's cases 1 to 12 ("Strips to try, on both sides").

use second::expression::plain;
use second::refusals::Refusal;
use second::verdict::{judge, search, Files, ROOM};

const RULES: &str = "(5:rules(3:all(3:imp(4:atom4:shut(1:v1:0))(4:atom3:dry(1:v1:0)))))";
const GOAL: &str = "(3:imp(4:atom4:shut(1:f2:p7))(4:atom3:dry(1:f2:p7)))";
const TERMS: &str = "(5:terms(1:f2:p7))";
const STRIP: &str = "(3:imp(3:use1:0(1:0)(3:use1:1())))";

fn b() -> Files<'static> {
    Files { rules: RULES.as_bytes(), goal: GOAL.as_bytes(), terms: TERMS.as_bytes() }
}

fn refusal(number: u8, file: u8, place: usize) -> Refusal {
    Refusal { number, file, place }
}

fn judged(files: Files, strip: &[u8]) -> Result<(usize, usize), Refusal> {
    judge(files, strip, ROOM).map(|node| (node.height(), node.nodes()))
}

fn on(rules: &str, goal: &str, terms: &str, strip: &str) -> Result<(usize, usize), Refusal> {
    judged(Files { rules: &plain(rules), goal: &plain(goal), terms: &plain(terms) }, &plain(strip))
}

fn searched(files: Files, height: usize, size: usize) -> Result<(usize, usize, Vec<u8>), Refusal> {
    let found = search(files, height, size, ROOM, u64::MAX).unwrap();
    found.map(|(node, bytes)| (node.height(), node.nodes(), bytes))
}

#[test]
fn cases_1_and_2() {
    assert_eq!(judged(b(), STRIP.as_bytes()), Ok((3, 3)));
    assert_eq!(judged(b(), STRIP.replace("1:1", "1:0").as_bytes()), Err(refusal(7, 4, 20)));
}

#[test]
fn cases_3_and_4() {
    for height in [0, 1, 2] {
        assert_eq!(searched(b(), height, 16_384), Err(refusal(8, 0, 0)));
        assert_eq!(searched(b(), height, 0), Err(refusal(8, 0, 0)));
    }
    assert_eq!(searched(b(), 3, 33), Err(refusal(10, 0, 0)));
    assert_eq!(searched(b(), 3, 34), Ok((3, 3, STRIP.as_bytes().to_vec())));
    assert_eq!(searched(b(), 32, 16_384), Ok((3, 3, STRIP.as_bytes().to_vec())));
}

#[test]
fn cases_5_and_6() {
    assert_eq!(on("(rules)", "(top)", "(terms)", "(top)"), Ok((1, 1)));
    let goal = "(and (imp (atom p) (atom p)) (atom p))";
    let strip = "(and (imp (use 0 ())) (use 0 ()))";
    assert_eq!(plain(strip), b"(3:and(3:imp(3:use1:0()))(3:use1:0()))");
    assert_eq!(on("(rules)", goal, "(terms)", strip), Err(refusal(7, 4, 25)));
}

#[test]
fn cases_7_and_8() {
    let rules = "(rules (all (atom eq (v 0) (v 0))))";
    let goal = "(all (some (atom eq (v 1) (v 0))))";
    assert_eq!(on(rules, goal, "(terms (e 1))", "(all (some 0 (use 0 (0))))"), Ok((3, 3)));
    let goal = "(some (all (atom eq (v 0) (v 1))))";
    assert_eq!(on(rules, goal, "(terms (e 1))", "(some 0 (all (use 0 (0))))"), Err(refusal(7, 4, 0)));
}

#[test]
fn cases_9_and_10() {
    for goal in ["(or (imp (atom p) (atom q)) (atom p))", "(imp (imp (imp (atom p) (atom q)) (atom p)) (atom p))"] {
        for height in 0..=32 {
            let files = Files { rules: b"(5:rules)", goal: &plain(goal), terms: b"(5:terms)" };
            assert_eq!(searched(files, height, 16_384), Err(refusal(8, 0, 0)));
        }
    }
}

#[test]
fn case_11() {
    assert_eq!(judged(b(), b""), Err(refusal(2, 4, 0)));
    assert_eq!(judged(Files { rules: b"01:a", ..b() }, STRIP.as_bytes()), Err(refusal(2, 1, 1)));
    assert_eq!(judged(Files { goal: b"01:a", ..b() }, STRIP.as_bytes()), Err(refusal(2, 2, 1)));
    assert_eq!(judged(Files { terms: b"01:a", ..b() }, STRIP.as_bytes()), Err(refusal(2, 3, 1)));
    assert_eq!(judged(b(), b"01:a"), Err(refusal(2, 4, 1)));
    assert_eq!(judged(Files { goal: b"1:a", ..b() }, STRIP.as_bytes()), Err(refusal(4, 2, 0)));
}

#[test]
fn case_12() {
    let rules = |count| plain(&format!("(rules {})", "(atom p)".repeat(count)));
    let with = |rules: &[u8]| judged(Files { rules, goal: b"(3:top)", terms: b"(5:terms)" }, b"(3:top)");
    assert_eq!(with(&rules(256)), Ok((1, 1)));
    assert_eq!(with(&rules(257)), Err(refusal(6, 1, 8 + 11 * 256)));
    let deep = |alls: usize| plain(&format!("{}(atom p){}", "(all ".repeat(alls), ")".repeat(alls)));
    let with = |goal: &[u8]| judged(Files { rules: b"(5:rules)", goal, terms: b"(5:terms)" }, b"(3:top)");
    assert_eq!(with(&deep(63)), Err(refusal(7, 4, 0)));
    assert_eq!(with(&deep(64)), Err(refusal(3, 2, 6 * 64)));
    assert!(searched(b(), 32, 16_384).is_ok());
    assert_eq!(searched(b(), 33, 16_384), Err(refusal(9, 0, 0)));
}
