//! Strips as trees: the strip nodes of document 01's table, their height and their number.

#[derive(Clone, Copy, Debug, PartialEq, Eq)]
pub enum Step {
    Left,
    Right,
    Number(usize),
}

#[derive(Clone, Debug, PartialEq, Eq)]
pub enum What {
    Top,
    And,
    Left,
    Right,
    Some(usize),
    All,
    Imp,
    Use(usize, Vec<Step>),
}

/// A node: its parts P in order, and the offset of its opening parenthesis in the strip it was read from.
#[derive(Clone, Debug, PartialEq, Eq)]
pub struct Node {
    pub place: usize,
    pub what: What,
    pub parts: Vec<Node>,
}

impl Node {
    /// A node that was not read from a file.
    pub fn new(what: What, parts: Vec<Node>) -> Node {
        Node { place: 0, what, parts }
    }

    /// 1 without parts; else one more than the highest part.
    pub fn height(&self) -> usize {
        1 + self.parts.iter().map(Node::height).max().unwrap_or(0)
    }

    /// The number of nodes.
    pub fn nodes(&self) -> usize {
        1 + self.parts.iter().map(Node::nodes).sum::<usize>()
    }

    /// The nodes in file order.
    pub fn all(&self) -> Vec<&Node> {
        let mut all = vec![self];
        for part in &self.parts {
            all.extend(part.all());
        }
        all
    }
}
