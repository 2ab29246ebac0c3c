//! One change of a strip: a node, a number, a path step or a part. The strip stays within document 01's table.

use crate::chance::Chance;
use crate::make::formulas;
use crate::strip::{Node, Step, What};

pub fn strip(chance: &mut Chance, root: &Node) -> Node {
    let mut changed = root.clone();
    let nodes = changed.nodes();
    let other = numbered(&mut changed, chance.below(nodes)).clone();
    let here = numbered(&mut changed, chance.below(nodes));
    match chance.below(8) {
        0 => *here = other,
        1 => *here = Node::new(chance.of(&[What::Imp, What::All, What::Left, What::Right]).clone(), vec![here.clone()]),
        2 => *here = formulas::node(chance, 1),
        3 if !here.parts.is_empty() => *here = here.parts[0].clone(),
        4 => parts(chance, here, other),
        _ => what(chance, here),
    }
    changed
}

/// The node of this number in file order.
fn numbered(node: &mut Node, number: usize) -> &mut Node {
    if number == 0 {
        return node;
    }
    let mut left = number - 1;
    for part in &mut node.parts {
        let nodes = part.nodes();
        if left < nodes {
            return numbered(part, left);
        }
        left -= nodes;
    }
    panic!("no such node")
}

/// Another number of parts, or another order of them.
fn parts(chance: &mut Chance, node: &mut Node, other: Node) {
    match (&node.what, node.parts.len()) {
        (What::Use(..), 0) => node.parts.push(other),
        (What::Use(..), _) if chance.once_in(2) => node.parts.clear(),
        (What::And, _) => node.parts.reverse(),
        (_, 1) => node.parts[0] = other,
        _ => node.what = What::Use(0, Vec::new()),
    }
}

/// Another word, number or path, with the same parts.
fn what(chance: &mut Chance, node: &mut Node) {
    match &mut node.what {
        What::Some(n) => *n = near(chance, *n),
        What::Use(k, path) => {
            if path.is_empty() || chance.once_in(3) {
                *k = near(chance, *k);
            } else {
                steps(chance, path);
            }
        }
        What::Top => node.what = What::Use(chance.below(3), Vec::new()),
        What::And => node.parts.reverse(),
        _ => node.what = chance.of(&[What::Left, What::Right, What::All, What::Imp, What::Some(0)]).clone(),
    }
}

fn near(chance: &mut Chance, number: usize) -> usize {
    match chance.below(4) {
        0 => number + 1,
        1 => number.saturating_sub(1),
        2 => chance.below(6),
        _ => *chance.of(&[0, 1, 2, 255, 256, 999]),
    }
}

/// One step changed, added or left out.
fn steps(chance: &mut Chance, path: &mut Vec<Step>) {
    let at = chance.below(path.len());
    match chance.below(6) {
        0 => drop(path.remove(at)),
        1 => path.insert(at, formulas::step(chance)),
        2 => path.push(formulas::step(chance)),
        3 => path[at] = formulas::step(chance),
        _ => {
            path[at] = match path[at] {
                Step::Left => Step::Right,
                Step::Right => Step::Left,
                Step::Number(n) => Step::Number(near(chance, n)),
            }
        }
    }
}
