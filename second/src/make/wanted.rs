//! Search cases that have a name: document 01's cases 3, 4, 9, 10 and 12, "Which strip the search writes", heights that
//! are just enough, loops that end at the height, heads under `and` and `all`, clauses supposed twice, and strips of just
//! 16,384 bytes and one more.

use crate::expression::plain;
use crate::make::packets::{base, KINDS};
use crate::make::searching::Three;
use crate::make::sizes::{of_bytes, of_levels, of_members};
use crate::table::Kind;

/// Files, height and size.
pub type Asked = (Three, usize, usize);

fn files(rules: &str, goal: &str, terms: &str) -> Three {
    [rules, goal, terms].map(plain)
}

/// Packet B without its strip.
fn b() -> Three {
    let [rules, goal, terms, _] = base();
    [rules, goal, terms]
}

pub fn searches() -> Vec<Asked> {
    [of_document_01(), refused(), first(), heights(), loops(), candidates(), long()].concat()
}

/// Those in which a clause's head decides which candidates there are to try (document 02, Three).
pub fn matched() -> Vec<Asked> {
    [heads(), supposed()].concat()
}

/// One packet at several heights, each with the whole buffer.
fn at(packet: &Three, heights: impl IntoIterator<Item = usize>) -> Vec<Asked> {
    heights.into_iter().map(|height| (packet.clone(), height, 16_384)).collect()
}

fn of_document_01() -> Vec<Asked> {
    let mut all = at(&b(), 0..=33);
    for height in [0, 2, 3, 4, 32, 33] {
        all.extend([0, 1, 33, 34, 35, 16_383].map(|size| (b(), height, size)));
    }
    let classical = [
        "(or (imp (atom p) (atom q)) (atom p))",
        "(imp (imp (imp (atom p) (atom q)) (atom p)) (atom p))",
        "(or (atom p) (imp (atom p) (atom q)))",
        "(imp (imp (all (atom r (v 0))) (atom q)) (some (imp (atom r (v 0)) (atom q))))",
    ];
    for goal in classical {
        all.extend(at(&files("(rules)", goal, "(terms)"), 0..=32));
    }
    all
}

/// 9 before any file, then the files in turn, whatever the height and the buffer.
fn refused() -> Vec<Asked> {
    let mut all = Vec::new();
    let mut with = |kind: Kind, file: Vec<u8>, heights: &[usize]| {
        let mut packet = b();
        packet[kind as usize - 1] = file;
        all.extend(heights.iter().map(|height| (packet.clone(), *height, 40)));
    };
    for kind in &KINDS[..3] {
        for file in [&b""[..], b"01:a", b"1:a", b"(", b"(3:nor)", b"()"] {
            with(*kind, file.to_vec(), &[0, 3, 32, 33, 1_000]);
        }
        with(*kind, of_levels(*kind, 64), &[0, 3, 33]);
        with(*kind, of_levels(*kind, 65), &[0, 3, 33]);
        with(*kind, of_bytes(*kind, 16_385), &[3]);
    }
    for kind in [Kind::Rules, Kind::Terms] {
        with(kind, plain(&of_members(kind, 256)), &[3]);
        with(kind, plain(&of_members(kind, 257)), &[0, 3, 33]);
    }
    with(Kind::Rules, plain("(rules (atom p (v 0)))"), &[0, 3, 33]);
    with(Kind::Goal, plain("(atom p (e 1))"), &[0, 3, 33]);
    with(Kind::Terms, plain("(terms (e 65))"), &[0, 3, 33, 65_536]);
    with(Kind::Terms, plain("(terms (v 0))"), &[0, 3]);
    all
}

/// The first strip and not the shortest; the options in their order.
fn first() -> Vec<Asked> {
    let chain = "(atom p0) (imp (atom p0) (atom p1)) (imp (atom p1) (atom p2)) (imp (atom p2) (atom p3))";
    let mut all = Vec::new();
    let goals = [
        "(or (atom p3) (top))",
        "(or (top) (atom p3))",
        "(or (or (atom q) (atom p2)) (atom p0))",
        "(and (or (atom p3) (atom p0)) (or (atom p2) (atom p1)))",
        "(imp (atom p3) (atom p3))",
        "(imp (and (atom q) (atom p2)) (or (atom p3) (atom q)))",
        "(imp (imp (atom p0) (atom q)) (imp (imp (atom p3) (atom q)) (atom q)))",
        "(imp (imp (atom p3) (atom q)) (imp (imp (atom p0) (atom q)) (atom q)))",
        "(imp (and (imp (atom p2) (atom q)) (and (imp (atom p0) (atom q)) (atom q))) (atom q))",
    ];
    for goal in goals {
        all.extend(at(&files(&format!("(rules {chain})"), goal, "(terms)"), 0..=8));
        all.extend(at(&files(&format!("(rules {chain} (atom p3))"), goal, "(terms)"), 0..=6));
    }
    let rules = "(rules (all (and (atom r (v 0)) (atom s (v 0) (v 0)))) (all (all (and (atom s (v 0) (v 1)) (atom s (v 1) (v 0))))))";
    let terms = "(terms (f b) (f a) (f b) (f a))";
    for goal in [
        "(atom r (f a))",
        "(atom s (f a) (f b))",
        "(some (atom r (v 0)))",
        "(some (and (atom s (v 0) (f a)) (atom s (f b) (v 0))))",
    ] {
        all.extend(at(&files(rules, goal, terms), 0..=4));
        all.extend(at(&files(rules, goal, "(terms)"), [4]));
    }
    all
}

/// Heights that are just enough, up to 32.
fn heights() -> Vec<Asked> {
    let mut rules = "(rules (atom p0)".to_string();
    for n in 1..40 {
        rules += &format!("(imp (atom p{}) (atom p{n}))", n - 1);
    }
    rules += ")";
    let mut all = Vec::new();
    for n in [0, 1, 29, 30, 31, 32] {
        let packet = files(&rules, &format!("(atom p{n})"), "(terms)");
        all.extend(at(&packet, [n, n + 1, 31, 32, 33]));
    }
    let nest = |open: &str, inside: &str, times: usize| open.repeat(times) + inside + &")".repeat(times);
    for n in [29, 30, 31, 32] {
        for (open, inside) in [
            ("(imp (atom p) ", "(atom p)"),
            ("(all ", "(top)"),
            ("(some ", "(top)"),
            ("(and (top) ", "(top)"),
            ("(or (atom q) ", "(top)"),
        ] {
            all.extend(at(&files("(rules)", &nest(open, inside, n), "(terms (f a))"), [30, 31, 32]));
        }
        let goal = nest("(all ", "(atom r (v 0) (v 1))", n);
        let terms = format!("(terms (e {}) (e {n}) (e {}))", n + 1, n - 1);
        all.extend(at(&files("(rules (all (all (atom r (v 0) (v 1)))))", &goal, &terms), [31, 32]));
    }
    all
}

/// Rules that lead back to themselves: the height left ends them.
fn loops() -> Vec<Asked> {
    let mut all = Vec::new();
    for rules in [
        "(rules (imp (atom p) (atom p)))",
        "(rules (imp (atom p) (atom p)) (atom p))",
        "(rules (imp (atom q) (atom p)) (imp (atom p) (atom q)))",
        "(rules (imp (imp (atom p) (atom p)) (atom p)))",
        "(rules (imp (and (atom p) (atom p)) (atom p)))",
        "(rules (imp (or (atom q) (atom p)) (atom p)) (imp (atom p) (atom q)))",
        "(rules (imp (all (some (atom p))) (atom p)))",
    ] {
        all.extend(at(&files(rules, "(atom p)", "(terms (f a))"), [0, 1, 2, 3, 5, 9, 15, 16]));
        if !rules.contains("or") {
            all.extend(at(&files(rules, "(atom p)", "(terms (f a))"), [31, 32]));
        }
    }
    let pipes = "(rules (atom pipe (f a) (f b)) (atom pipe (f b) (f c)) (atom pipe (f c) (f a)) (all (all (imp (atom pipe (v 1) (v 0)) (atom way (v 1) (v 0))))) (all (all (imp (some (and (atom pipe (v 2) (v 0)) (atom way (v 0) (v 1)))) (atom way (v 1) (v 0))))))";
    for goal in ["(atom way (f a) (f c))", "(atom way (f a) (f d))", "(some (atom way (f b) (v 0)))"] {
        all.extend(at(&files(pipes, goal, "(terms (f a) (f b) (f c))"), [0, 2, 3, 4, 5, 6, 8]));
    }
    let count = "(rules (atom num (f z)) (all (imp (atom num (v 0)) (atom num (f s (v 0))))))";
    for n in 0..5 {
        let number = "(f s ".repeat(n) + "(f z)" + &")".repeat(n);
        let terms = "(terms (f z) (f s (f z)) (f s (f s (f z))) (f s (f s (f s (f z)))))";
        all.extend(at(&files(count, &format!("(atom num {number})"), terms), [n, n + 1, 32]));
    }
    all
}

/// Candidates by number, repeats, parameters above those open, and as many candidates as there may be.
fn candidates() -> Vec<Asked> {
    let mut all = Vec::new();
    let rules = "(rules (all (atom eq (v 0) (v 0))))";
    for terms in [
        "(terms)",
        "(terms (e 1))",
        "(terms (e 2) (e 1))",
        "(terms (f g (e 2)) (f a) (e 1) (e 2))",
        "(terms (f a) (f a) (e 1))",
    ] {
        for goal in [
            "(all (some (atom eq (v 1) (v 0))))",
            "(some (all (atom eq (v 1) (v 0))))",
            "(all (all (some (atom eq (v 2) (v 0)))))",
            "(all (all (some (atom eq (v 0) (v 1)))))",
            "(all (some (all (some (and (atom eq (v 3) (v 2)) (atom eq (v 1) (v 0)))))))",
            "(some (atom eq (v 0) (v 0)))",
            "(and (all (all (some (atom eq (f g (v 1)) (v 0))))) (all (some (atom eq (v 0) (v 1)))))",
            "(all (imp (atom r (v 0)) (some (atom r (v 0)))))",
        ] {
            all.extend(at(&files(rules, goal, terms), [2, 3, 4, 5, 6, 32]));
        }
    }
    let rules = format!("(rules {})", "(atom q)".repeat(256));
    all.extend(at(&files(&rules, "(imp (atom p) (imp (atom r) (and (atom r) (atom p))))", "(terms)"), [3, 4]));
    let mut terms = "(terms".to_string();
    (0..256).for_each(|n| terms += &format!("(f c{n})"));
    terms += ")";
    for n in [0, 9, 10, 99, 100, 255] {
        all.extend(at(&files(&format!("(rules (atom r (f c{n})))"), "(some (atom r (v 0)))", &terms), [2]));
        all.extend(at(&files("(rules (all (atom r (v 0))))", &format!("(atom r (f c{n}))"), &terms), [1]));
    }
    all
}

/// Clauses with `and` and `all` in every order, for atoms whose variables stand for candidates and parameters, among
/// candidates that are listed twice or are a parameter themselves.
fn heads() -> Vec<Asked> {
    let swap = ("(atom s (v 0) (v 1))", "(imp (atom s (v 0) (v 1)) (atom t (v 1) (v 0)))");
    let pairs = [
        swap,
        (swap.1, swap.0),
        ("(atom s (v 0) (v 0))", "(atom s (v 1) (f a))"),
        ("(imp (atom r (v 0)) (atom s (v 1) (f a)))", "(atom s (v 1) (v 0))"),
        ("(imp (atom r (v 1)) (atom t (v 0) (v 0)))", "(imp (atom t (v 1) (v 1)) (atom s (v 0) (v 1)))"),
    ];
    let mut all = Vec::new();
    for (one, two) in pairs {
        for clause in [
            format!("(all (all (and {one} {two})))"),
            format!("(all (and (all {one}) (all {two})))"),
            format!("(and (all (all {one})) (all (all {two})))"),
            format!("(all (all {one})) (all (all {two}))"),
        ] {
            let rules = format!("(rules {clause} (atom r (f a)) (atom d (f b) (f a)))");
            for (goal, least) in [
                ("(some (some (and (atom d (v 1) (v 0)) (atom s (v 1) (v 0)))))", 4),
                ("(some (some (and (atom d (v 1) (v 0)) (atom s (v 0) (v 1)))))", 4),
                ("(some (some (and (atom d (v 1) (v 0)) (atom t (v 0) (v 1)))))", 5),
                ("(all (some (atom s (v 0) (v 1))))", 3),
                ("(all (some (imp (atom r (v 0)) (some (atom t (v 1) (v 0))))))", 5),
            ] {
                for terms in ["(terms (f b) (f a) (f b))", "(terms (e 1) (f a) (e 1) (f b))"] {
                    all.extend(at(&files(&rules, goal, terms), [least - 1, least, least + 1]));
                }
            }
        }
    }
    all
}

/// The same clause supposed twice: the first of the two is used.
fn supposed() -> Vec<Asked> {
    let mut all = Vec::new();
    for (clause, goal) in [
        ("(atom p)", "(atom p)"),
        ("(atom r (v 0))", "(some (atom r (v 0)))"),
        ("(imp (atom r (v 0)) (atom p))", "(imp (atom r (v 0)) (atom p))"),
        ("(all (imp (atom r (v 0)) (atom s (v 0) (v 1))))", "(imp (atom r (v 0)) (some (some (atom s (v 0) (v 1)))))"),
        ("(all (and (atom s (v 0) (v 1)) (atom s (v 1) (v 0))))", "(some (atom s (v 1) (v 0)))"),
    ] {
        for around in ["all", "some"] {
            let packet = files(
                "(rules)",
                &format!("({around} (imp {clause} (imp {clause} {goal})))"),
                "(terms (f a) (e 1) (f a))",
            );
            all.extend(at(&packet, 3..=8));
        }
    }
    all
}

/// Strips of 16,383 to 16,386 bytes: nine doublings make 15,853, each leaf more with its `and` makes 14, and an `imp`, a
/// `left` and a `right` around a leaf make 7, 8 and 9.
fn long() -> Vec<Asked> {
    let mut rules = "(rules (atom d0)".to_string();
    for n in 1..14 {
        rules += &format!("(imp (and (atom d{}) (atom d{})) (atom d{n}))", n - 1, n - 1);
    }
    rules += ")";
    let mut all = Vec::new();
    let tops = "(and (top) ".repeat(33) + "(top)" + &")".repeat(33);
    let (top, imp, left, right) = ("(top)", "(imp (atom q) (top))", "(or (top) (top))", "(or (atom q) (top))");
    for four in [[right, right, left, top], [right, right, right, top], [imp, imp, imp, imp], [imp, imp, imp, left]] {
        let goal = format!(
            "(and (atom d9) (and (and {} {}) (and (and {} {}) {})))",
            four[0],
            four[1],
            four[2],
            four[3],
            tops_of(32)
        );
        let packet = files(&rules, &goal, "(terms)");
        all.extend([16_383, 16_384, 16_385, 20_000].map(|size| (packet.clone(), 32, size)));
    }
    all.extend(at(&files(&rules, &tops, "(terms)"), [33, 32]));
    for n in [3, 8, 10, 11] {
        let packet = files(&rules, &format!("(atom d{n})"), "(terms)");
        all.extend([0, 20_000].map(|size| (packet.clone(), 32, size)));
        all.extend([2 * n, 2 * n + 1].map(|height| (packet.clone(), height, 16_384)));
    }
    all
}

/// `and` over so many times `top`, not deep.
fn tops_of(leaves: usize) -> String {
    match leaves {
        1 => "(top)".to_string(),
        _ => format!("(and {} {})", tops_of(leaves / 2), tops_of(leaves - leaves / 2)),
    }
}
