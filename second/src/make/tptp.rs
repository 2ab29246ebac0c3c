//! TPTP cases: a text and the lengths of two buffers. Named texts first, then books by chance, sound and damaged, then
//! sizes: bytes, axioms, levels and outputs, and then texts that nest as deep as they can.

use crate::batch::put;
use crate::chance::Chance;
use crate::make::texts::texts;
use crate::tptp::convert::convert;
use crate::tptp::deep;
use crate::tptp::grammar::{Formula, Term};

/// The number of case files.
pub const PARTS: usize = 4;

/// A buffer that holds any file.
const ROOMY: usize = 16_384;

/// One of the case files, from 1 on.
pub fn cases(part: usize) -> Vec<u8> {
    let mut out = Vec::new();
    match part {
        1 => texts().iter().for_each(|text| case(&mut out, text, ROOMY, ROOMY)),
        2 => deep(|| by_chance(&mut out)),
        3 => deep(|| sizes(&mut out)),
        _ => deepest(&mut out),
    }
    out
}

fn case(out: &mut Vec<u8>, text: &[u8], rules_size: usize, goal_size: usize) {
    put(out, text);
    put(out, rules_size.to_string().as_bytes());
    put(out, goal_size.to_string().as_bytes());
}

fn by_chance(out: &mut Vec<u8>) {
    let mut chance = Chance::new(11);
    for _ in 0..3_000 {
        let mut tokens = book(&mut chance);
        for _ in 0..*chance.of(&[0, 0, 0, 1, 1, 2]) {
            damage(&mut chance, &mut tokens);
        }
        let mut text = laid_out(&mut chance, &tokens);
        if chance.once_in(8) {
            bytes_damaged(&mut chance, &mut text);
        }
        if text.len() > 500 {
            continue;
        }
        let (rules_size, goal_size) = match convert(&text, ROOMY, ROOMY) {
            Ok((rules, goal)) if chance.once_in(4) => {
                let near = |chance: &mut Chance, length: usize| chance.between(length - 1, length + 1);
                (near(&mut chance, rules.len()), near(&mut chance, goal.len()))
            }
            _ => (ROOMY, ROOMY),
        };
        case(out, &text, rules_size, goal_size);
    }
}

/// A book by chance as tokens, most of them in the part.
fn book(chance: &mut Chance) -> Vec<String> {
    let lines = chance.between(1, 4);
    let asked = chance.below(lines);
    let mut tokens = Vec::new();
    for line in 0..lines {
        let conjecture = if chance.once_in(40) { !(line == asked) } else { line == asked };
        let label = *chance.of(&["a", "b", "rule_1", "fof", "axiom"]);
        let role = if conjecture { "conjecture" } else { "axiom" };
        let depth = chance.below(4);
        let as_goal = if chance.once_in(20) { !conjecture } else { conjecture };
        let formula =
            if as_goal { goal(chance, &mut Vec::new(), depth) } else { clause(chance, &mut Vec::new(), depth) };
        tokens.extend(["fof", "(", label, ",", role, ","].map(str::to_string));
        logic(chance, &formula, &mut tokens);
        tokens.extend([")", "."].map(str::to_string));
    }
    tokens
}

const VARIABLES: [&str; 5] = ["X", "Y", "Z", "X1", "Valve_Z"];

fn names(chance: &mut Chance) -> Vec<String> {
    (0..*chance.of(&[1, 1, 1, 2, 2, 3])).map(|_| chance.of(&VARIABLES).to_string()).collect()
}

fn term(chance: &mut Chance, bound: &[String], depth: usize) -> Term {
    if chance.once_in(100) {
        return Term::Variable(chance.of(&VARIABLES).to_string());
    }
    if !bound.is_empty() && !chance.once_in(3) {
        return Term::Variable(chance.of(bound).clone());
    }
    let functions = [("a", 0), ("b", 0), ("p7", 0), ("g", 1), ("h", 2), ("a", 1)];
    let (name, count) = *chance.of(if depth == 0 { &functions[..3] } else { &functions });
    Term::Function(name.to_string(), (0..count).map(|_| term(chance, bound, depth - 1)).collect())
}

fn atom(chance: &mut Chance, bound: &[String]) -> Formula {
    let predicates = [("p", 0), ("q", 0), ("r", 1), ("dry", 1), ("shut", 1), ("eq", 2), ("r", 2), ("all", 1), ("p", 3)];
    let (name, count) = *chance.of(&predicates);
    let name = if chance.once_in(150) { "isShut" } else { name };
    let depth = chance.below(3);
    Formula::Atom(name.to_string(), (0..count).map(|_| term(chance, bound, depth)).collect())
}

/// The part of a formula by chance: a goal or a clause.
type Part = fn(&mut Chance, &mut Vec<String>, usize) -> Formula;

fn members(chance: &mut Chance, bound: &mut Vec<String>, depth: usize, part: Part) -> Vec<Formula> {
    (0..*chance.of(&[2, 2, 3, 4])).map(|_| part(chance, bound, depth - 1)).collect()
}

fn under(chance: &mut Chance, bound: &mut Vec<String>, depth: usize, part: Part) -> (Vec<String>, Box<Formula>) {
    let names = names(chance);
    bound.extend_from_slice(&names);
    let body = part(chance, bound, depth - 1);
    bound.truncate(bound.len() - names.len());
    (names, body.into())
}

fn goal(chance: &mut Chance, bound: &mut Vec<String>, depth: usize) -> Formula {
    if depth == 0 {
        return if chance.once_in(8) { Formula::True } else { atom(chance, bound) };
    }
    match chance.below(7) {
        0 => Formula::And(members(chance, bound, depth, goal)),
        1 => Formula::Or(members(chance, bound, depth, goal)),
        2 => {
            let (names, body) = under(chance, bound, depth, goal);
            Formula::Some(names, body)
        }
        3 => {
            let (names, body) = under(chance, bound, depth, goal);
            Formula::All(names, body)
        }
        4 | 5 => Formula::Implies(clause(chance, bound, depth - 1).into(), goal(chance, bound, depth - 1).into()),
        _ => atom(chance, bound),
    }
}

fn clause(chance: &mut Chance, bound: &mut Vec<String>, depth: usize) -> Formula {
    if depth == 0 {
        return atom(chance, bound);
    }
    match chance.below(6) {
        0 => Formula::And(members(chance, bound, depth, clause)),
        1 | 2 => {
            let (names, body) = under(chance, bound, depth, clause);
            Formula::All(names, body)
        }
        3 | 4 => Formula::Implies(goal(chance, bound, depth - 1).into(), atom(chance, bound).into()),
        _ => atom(chance, bound),
    }
}

/// The tokens of a formula that may stand alone.
fn logic(chance: &mut Chance, formula: &Formula, tokens: &mut Vec<String>) {
    match formula {
        Formula::And(members) => chain(chance, members, "&", tokens),
        Formula::Or(members) => chain(chance, members, "|", tokens),
        Formula::Implies(left, right) => {
            unit(chance, left, tokens);
            tokens.push("=>".to_string());
            unit(chance, right, tokens);
        }
        _ => unit(chance, formula, tokens),
    }
}

fn chain(chance: &mut Chance, members: &[Formula], sign: &str, tokens: &mut Vec<String>) {
    for (n, member) in members.iter().enumerate() {
        tokens.extend((n > 0).then(|| sign.to_string()));
        unit(chance, member, tokens);
    }
}

/// The tokens of a formula that takes one unit.
fn unit(chance: &mut Chance, formula: &Formula, tokens: &mut Vec<String>) {
    let plain = matches!(formula, Formula::And(_) | Formula::Or(_) | Formula::Implies(..));
    if plain || chance.once_in(8) {
        tokens.push("(".to_string());
        logic(chance, formula, tokens);
        tokens.push(")".to_string());
        return;
    }
    match formula {
        Formula::True => tokens.push("$true".to_string()),
        Formula::Atom(name, terms) => applied(name, terms, tokens),
        Formula::All(names, body) | Formula::Some(names, body) => {
            tokens.push(if matches!(formula, Formula::All(..)) { "!" } else { "?" }.to_string());
            for (n, name) in names.iter().enumerate() {
                tokens.extend([if n == 0 { "[" } else { "," }, name].map(str::to_string));
            }
            tokens.extend(["]", ":"].map(str::to_string));
            unit(chance, body, tokens);
        }
        _ => panic!("a unit"),
    }
}

fn applied(name: &str, terms: &[Term], tokens: &mut Vec<String>) {
    tokens.push(name.to_string());
    for (n, term) in terms.iter().enumerate() {
        tokens.push(if n == 0 { "(" } else { "," }.to_string());
        match term {
            Term::Variable(name) => tokens.push(name.clone()),
            Term::Function(name, terms) => applied(name, terms, tokens),
            Term::Outside => panic!("in the part"),
        }
    }
    tokens.extend((!terms.is_empty()).then(|| ")".to_string()));
}

/// One change of the tokens.
fn damage(chance: &mut Chance, tokens: &mut Vec<String>) {
    let others = [
        "(",
        ")",
        "[",
        "]",
        "{",
        "}",
        ",",
        ".",
        ":",
        "-",
        "!",
        "?",
        "~",
        "&",
        "|",
        "=",
        "!=",
        "=>",
        "<=",
        "<=>",
        "<~>",
        "~|",
        "~&",
        "-->",
        "p",
        "q",
        "a",
        "f",
        "fof",
        "axiom",
        "conjecture",
        "lemma",
        "X",
        "Y",
        "$true",
        "$false",
        "$foo",
        "$$foo",
        "'p'",
        "\"d\"",
        "1",
        "-1",
        "1.5",
        "1/2",
        "isShut",
        "include",
        "cnf",
        "[X]",
        "(p)",
        ",x",
        "%",
        "/*",
        "*/",
    ];
    let at = chance.below(tokens.len());
    match chance.below(5) {
        0 if tokens.len() > 1 => drop(tokens.remove(at)),
        1 => tokens.insert(at, tokens[at].clone()),
        2 => {
            let other = chance.below(tokens.len());
            tokens.swap(at, other);
        }
        3 => tokens.insert(at, chance.of(&others).to_string()),
        _ => tokens[at] = chance.of(&others).to_string(),
    }
}

/// The tokens with spaces and comments between them, more than are needed and in places fewer.
fn laid_out(chance: &mut Chance, tokens: &[String]) -> Vec<u8> {
    let spaces = [" ", " ", " ", "\n", "\t", "  ", "%c\n", "/* c */", "/**/", " %\n ", "\r\n"];
    let wide = chance.once_in(3);
    let mut text = Vec::new();
    for token in tokens {
        let joins = text.last().is_some_and(|last: &u8| !b"([{,.:)]} \n\t".contains(last))
            && !b"([{,.:)]}".contains(&token.as_bytes()[0]);
        if joins && !chance.once_in(200) || wide && chance.once_in(2) {
            text.extend_from_slice(chance.of(&spaces).as_bytes());
        }
        text.extend_from_slice(token.as_bytes());
    }
    text
}

/// One change of the bytes.
fn bytes_damaged(chance: &mut Chance, text: &mut Vec<u8>) {
    let at = chance.below(text.len());
    match chance.below(4) {
        0 => drop(text.remove(at)),
        1 => text.insert(at, chance.byte()),
        2 => text[at] = chance.byte(),
        _ => text.truncate(at),
    }
}

fn sizes(out: &mut Vec<u8>) {
    bytes(out);
    axioms(out);
    levels(out);
    outputs(out);
}

fn asked(formula: &str) -> String {
    format!("fof(c,conjecture,{formula}).")
}

fn given(formula: &str) -> String {
    format!("fof(a,axiom,{formula}).")
}

fn roomy(out: &mut Vec<u8>, text: &str) {
    case(out, text.as_bytes(), ROOMY, ROOMY);
}

/// A text of as many bytes as there may be, and of one more.
fn bytes(out: &mut Vec<u8>) {
    for text in [asked("p"), asked("p & q | r"), "x".to_string()] {
        for bytes in [16_384, 16_385] {
            roomy(out, &format!("{text:bytes$}"));
        }
    }
    roomy(out, &format!("{}%{}", asked("p"), "c".repeat(16_384 - asked("p").len() - 1)));
}

/// As many axioms as there may be, and more, with every refusal that comes before or after.
fn axioms(out: &mut Vec<u8>) {
    let chain = |members: usize| vec!["p"; members].join("&");
    for count in [0, 1, 255, 256, 257, 300] {
        let many = given("p").repeat(count);
        roomy(out, &(many.clone() + &asked("q")));
        roomy(out, &(asked("q") + &many));
        roomy(out, &many);
        roomy(out, &(many.clone() + &asked("~ q")));
        roomy(out, &(many.clone() + &asked("q(X)")));
        roomy(out, &(many.clone() + &asked("q & r | s")));
        roomy(out, &(many.clone() + &asked(&chain(65))));
        case(out, (many + &asked("q")).as_bytes(), 100, 5);
    }
}

/// Outputs that nest just as deep as they may, and one deeper, by each way to nest.
fn levels(out: &mut Vec<u8>) {
    for levels in [62, 63, 64, 65] {
        let n = levels - 1;
        let formulas = [
            "! [X] : ".repeat(n) + "p",
            "! [X] : ".repeat(n - 1) + "p(X)",
            format!("! [{}] : p", vec!["X"; n].join(",")),
            vec!["p"; n + 1].join("&"),
            format!("p({}a{})", "f(".repeat(n - 1), ")".repeat(n - 1)),
            format!("{}p{}", "(p&".repeat(n), ")".repeat(n)),
        ];
        for formula in &formulas {
            roomy(out, &asked(formula));
            roomy(out, &(given(formula) + &asked("q")));
            case(out, (given(formula) + &asked(formula)).as_bytes(), 0, 0);
            roomy(out, &(given(formula) + &asked("q(Free)")));
        }
        roomy(out, &asked(&("? [Y] : ".repeat(n) + "p(Y)")));
        roomy(out, &asked(&("q => (".repeat(n) + "p" + &")".repeat(n))));
        roomy(out, &asked(&vec!["p"; n + 1].join("|")));
        roomy(out, &given(&format!("({}) => q", vec!["p"; n].join("|"))));
        roomy(out, &(given(&format!("({}) => q", vec!["p"; n].join("|"))) + &asked("p")));
    }
}

/// Terms whose spelling takes exactly so many bytes together, at least 56.
fn terms(bytes: usize) -> String {
    let long = bytes % 8;
    [vec!["aa"; long], vec!["a"; (bytes - 9 * long) / 8]].concat().join(",")
}

/// Outputs of as many bytes as they may have, and of one more, by the buffer and by the limit.
fn outputs(out: &mut Vec<u8>) {
    for (bytes, room) in [(16_384, 20_000), (16_385, 20_000), (16_384, 16_383), (200, 200), (200, 199), (200, 201)] {
        let goal = asked(&format!("p({})", terms(bytes - 11)));
        let rules = given(&format!("p({})", terms(bytes - 20)));
        case(out, goal.as_bytes(), 9, room);
        case(out, goal.as_bytes(), 8, room);
        case(out, (rules.clone() + &asked("q")).as_bytes(), room, 11);
        case(out, (rules + &asked("q")).as_bytes(), room, 10);
    }
}

/// Texts that nest as deep as their bytes allow: the grammar, a free variable and the shape are judged to the end.
fn deepest(out: &mut Vec<u8>) {
    let nest = |open: &str, inside: &str, close: &str, times: usize| open.repeat(times) + inside + &close.repeat(times);
    for (open, inside, close, times) in [
        ("(", "p", ")", 8_170),
        ("(", "p & q", ")", 8_100),
        ("(", "p & q | r", ")", 8_100),
        ("(", "p(X)", ")", 8_100),
        ("(", "p", "", 16_000),
        ("~", "p", "", 16_300),
        ("~", "", "", 16_300),
        ("~(", "p", ")", 5_400),
        ("p(", "a", ")", 5_400),
        ("p(", "X", ")", 5_400),
        ("p(", "a", ")", 5_000),
        ("![X]:", "p(X)", "", 3_200),
        ("![X]:", "p(Y)", "", 3_200),
        ("?[X]:", "p & q", "", 3_200),
        ("p=>(", "p", ")", 3_200),
        ("p&", "p", "", 8_100),
        ("p|", "p", "", 8_100),
        ("p&", "p|p", "", 8_100),
        ("(", "[]-->[]", ")", 8_100),
        ("(", "[]-->[", ")", 8_100),
    ] {
        roomy(out, &asked(&nest(open, inside, close, times)));
    }
    let list = vec!["A"; 8_100].join(",");
    roomy(out, &asked(&format!("![{list}]:p(A)")));
    roomy(out, &asked(&format!("![{list}]:p(B)")));
    roomy(out, &(given(&format!("![{list}]:p(A)")) + &asked("p & q | r")));
    roomy(out, &asked(&format!("p,{}", nest("[", "", "]", 8_100))));
    roomy(out, &asked(&format!("p,{}", nest("f(", "a", ")", 5_300))));
    roomy(out, &asked(&format!("p,{}", nest("[", "a", "]", 8_100) + "]")));
    roomy(out, &format!("/*{}*/{}", "/".repeat(16_000), asked("p")));
}
