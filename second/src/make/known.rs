//! Judge cases that have a name: document 01's cases, its "Errors that look right", the open points of the fit, goals
//! named as if they meant something, and the largest packets.

use crate::expression::plain;
use crate::make::packets::{base, Files, KINDS};
use crate::make::sizes::{of_bytes, of_levels, of_members};
use crate::table::Kind;

fn files(rules: &str, goal: &str, terms: &str, strip: &str) -> Files {
    [rules, goal, terms, strip].map(plain)
}

pub fn packets() -> Vec<Files> {
    [of_document_01(), names(), clauses(), parameters(), paths(), equality(), large(), deep()].concat()
}

/// Cases 1, 2, 5 to 8, 11 and 12.
fn of_document_01() -> Vec<Files> {
    let eq = "(rules (all (atom eq (v 0) (v 0))))";
    let mut all = vec![
        base(),
        files("(rules)", "(top)", "(terms)", "(top)"),
        files("(rules)", "(and (imp (atom p) (atom p)) (atom p))", "(terms)", "(and (imp (use 0 ())) (use 0 ()))"),
        files(eq, "(all (some (atom eq (v 1) (v 0))))", "(terms (e 1))", "(all (some 0 (use 0 (0))))"),
        files(eq, "(some (all (atom eq (v 0) (v 1))))", "(terms (e 1))", "(some 0 (all (use 0 (0))))"),
    ];
    let mut other = base();
    other[3] = plain("(imp (use 0 (0) (use 0 ())))");
    all.push(other);
    for which in 0..4 {
        for file in [&b""[..], b"01:a", b"1:a"] {
            let mut other = base();
            other[which] = file.to_vec();
            all.push(other);
        }
    }
    for count in [256, 257] {
        let rules = format!("(rules {})", "(atom p)".repeat(count));
        all.push(files(&rules, "(atom p)", "(terms)", "(use 255 ())"));
    }
    all
}

/// No name has a meaning of its own.
fn names() -> Vec<Files> {
    let mut all = Vec::new();
    for atom in ["eq (f a) (f a)", "not (f a)", "is (f a) (f a)", "true", "top", "all (f b)", "not (f not)", "imp"] {
        let goal = format!("(atom {atom})");
        for strip in ["(top)", "(use 0 ())", "(use 0 (0))", "(all (top))", "(use 0 () (top))"] {
            all.push(files("(rules)", &goal, "(terms (f a))", strip));
            all.push(files(&format!("(rules {goal})"), &goal, "(terms (f a))", strip));
        }
        let rules = format!("(rules (imp (or (atom q) (top)) {goal}))");
        all.push(files(&rules, &goal, "(terms)", "(use 0 () (right (top)))"));
        all.push(files(&rules, &goal, "(terms)", "(use 0 () (left (top)))"));
    }
    all
}

/// Supposed clauses: where they are at hand, and their numbers.
fn clauses() -> Vec<Files> {
    let mut all = Vec::new();
    let both = "(and (imp (atom p) (atom p)) (imp (atom q) (atom q)))";
    for k in 0..4 {
        let strip = format!("(and (imp (use 1 ())) (imp (use {k} ())))");
        all.push(files("(rules (atom r))", both, "(terms)", &strip));
        let goal = "(imp (and (atom p) (atom q)) (imp (atom r) (and (atom q) (atom r))))";
        for path in ["()", "(l)", "(r)", "(0)"] {
            let strip = format!("(imp (imp (and (use {k} {path}) (use {} ()))))", k + 1);
            all.push(files("(rules (atom p))", goal, "(terms)", &strip));
        }
        let goal = "(imp (imp (imp (atom p) (atom q)) (atom r)) (imp (atom q) (atom r)))";
        let strip = format!("(imp (imp (use 0 () (imp (use {k} ())))))");
        all.push(files("(rules)", goal, "(terms)", &strip));
    }
    for count in [254, 255, 256] {
        let rules = format!("(rules {})", "(atom q)".repeat(count));
        for k in [254, 255, 256, 257, 258, 999] {
            let strip = format!("(imp (imp (use {k} ())))");
            all.push(files(&rules, "(imp (atom r) (imp (atom p) (atom p)))", "(terms)", &strip));
        }
    }
    all
}

/// Open parameters: not before their `all`, and not after it either.
fn parameters() -> Vec<Files> {
    let mut all = Vec::new();
    let rules = "(rules (all (atom r (v 0))) (all (all (imp (atom r (v 0)) (atom h (v 1) (v 0))))))";
    let terms = "(terms (e 1) (e 2) (f g (e 2)) (f a) (e 63) (e 64) (f h (e 1) (e 3)))";
    for n in 0..8 {
        let goal = "(and (all (all (atom r (v 0)))) (all (atom r (v 0))))";
        let strip = format!("(and (all (all (use 0 (1)))) (all (use 0 ({n}))))");
        all.push(files(rules, goal, terms, &strip));
        let strip = format!("(and (all (all (use 0 ({n})))) (all (use 0 (0))))");
        all.push(files(rules, goal, terms, &strip));
        let goal = "(all (some (all (some (atom h (v 2) (v 0))))))";
        for (first, second) in [(n, 1), (0, n), (3, n)] {
            let strip = format!("(all (some {first} (all (some {n} (use 1 ({first} {n}) (use 0 ({second}))))))))");
            all.push(files(rules, goal, terms, &strip[..strip.len() - 1]));
        }
        let goal = "(all (imp (all (atom s (v 1) (v 0))) (some (atom s (v 1) (v 0)))))";
        let strip = format!("(all (imp (some {n} (use 2 ({n})))))");
        all.push(files(rules, goal, terms, &strip));
    }
    all
}

/// Every fault of a path and of the third part.
fn paths() -> Vec<Files> {
    let rules =
        "(rules (all (and (all (atom r (v 1) (v 0))) (imp (atom q (v 0)) (atom r (v 0) (v 0))))) (atom q (f a)))";
    let terms = "(terms (f a) (f b))";
    let mut all = Vec::new();
    for goal in ["(atom r (f a) (f b))", "(atom r (f a) (f a))", "(atom q (f a))", "(top)", "(atom r (f a))"] {
        for path in [
            "", "0", "0 l", "0 l 1", "0 l 0", "0 r", "1 r", "0 r 0", "l", "l 0", "0 0", "0 l l", "0 l 1 1", "2 l 1",
            "0 l 2", "r",
        ] {
            for part in ["", "(use 1 ())", "(top)"] {
                all.push(files(rules, goal, terms, &format!("(use 0 ({path}) {part})")));
            }
        }
    }
    all
}

/// Equality is of terms, after the variables are replaced.
fn equality() -> Vec<Files> {
    let rules = "(rules (all (atom eq (v 0) (v 0))) (all (atom eq (f g (v 0)) (f g (f g (v 0))))) (all (all (atom eq (v 0) (v 1)))))";
    let terms = "(terms (f a) (f g (f a)) (e 1) (f g (e 1)) (f a) (f a (f a)))";
    let mut all = Vec::new();
    for goal in
        ["(atom eq (v 0) (v 1))", "(atom eq (f g (v 0)) (v 1))", "(atom eq (v 1) (f g (v 0)))", "(atom eq (v 2) (v 0))"]
    {
        let goal = format!("(all (some (some {goal})))");
        for n in 0..6 {
            for m in 0..6 {
                let path = ["(0)", "(1)", "(3)", "(4)", "(2)"][(n * 5 + m) % 5];
                all.push(files(rules, &goal, terms, &format!("(all (some {n} (some {m} (use 0 {path}))))")));
                all.push(files(rules, &goal, terms, &format!("(all (some {n} (some {m} (use 2 ({n} {m})))))")));
            }
        }
    }
    all
}

/// The largest packets, 16,373 bytes of goal and strip; and packets with one file too large in every way.
fn large() -> Vec<Files> {
    let mut all = Vec::new();
    let tree = tree_of(1_170);
    all.push(files("(rules)", &tree, "(terms)", &tree));
    let last = tree.rfind("(top)").expect("a leaf");
    let strip = format!("{}(use 0 ()){}", &tree[..last], &tree[last + 5..]);
    all.push(files("(rules)", &tree, "(terms)", &strip));
    for kind in KINDS {
        let mut with = |file: Vec<u8>| {
            let mut other = base();
            other[kind as usize - 1] = file;
            all.push(other);
        };
        with(of_bytes(kind, 16_385));
        with(of_levels(kind, 64));
        with(of_levels(kind, 65));
        if matches!(kind, Kind::Rules | Kind::Terms) {
            with(plain(&of_members(kind, 257)));
        }
    }
    all
}

/// `and` over so many times `top`.
fn tree_of(leaves: usize) -> String {
    match leaves {
        1 => "(top)".to_string(),
        _ => format!("(and {} {})", tree_of(leaves / 2), tree_of(leaves - leaves / 2)),
    }
}

/// The deepest packets: terms that nest 123 deep once the variables are replaced, 62 parameters, 62 supposed clauses.
fn deep() -> Vec<Files> {
    let nest = |open: &str, inside: &str, times: usize| open.repeat(times) + inside + &")".repeat(times);
    let mut all = Vec::new();
    let terms = format!(
        "(terms {} {} {} {})",
        nest("(f g ", "(f a)", 62),
        nest("(f g ", "(f a)", 61),
        nest("(f g ", "(f b)", 62),
        nest("(f g ", "(f g)", 62)
    );
    let rules = format!("(rules (all (atom p {})))", nest("(f g ", "(v 0)", 60));
    for more in [59, 60, 61] {
        let goal = format!("(some (atom p {}))", nest("(f g ", "(v 0)", more));
        for (n, m) in [(0, 0), (0, 1), (1, 0), (0, 2), (2, 0), (2, 2), (0, 3), (1, 1)] {
            all.push(files(&rules, &goal, &terms, &format!("(some {n} (use 0 ({m})))")));
        }
    }
    for count in [61, 62] {
        let goal = nest("(all ", "(atom p (v 0))", count);
        for k in [1, count - 1, count, count + 1, 64] {
            let terms = format!("(terms (e {k}))");
            all.push(files("(rules (all (atom p (v 0))))", &goal, &terms, &nest("(all ", "(use 0 (0))", count)));
        }
        let goal = format!("{}(atom p){}", "(imp (atom q) ".repeat(count), ")".repeat(count))
            .replacen("(atom q)", "(atom p)", 1);
        let rules = format!("(rules {})", "(atom q)".repeat(256));
        for k in [255, 256, 257, 255 + count, 256 + count] {
            all.push(files(&rules, &goal, "(terms)", &nest("(imp ", &format!("(use {k} ())"), count)));
        }
    }
    all
}
