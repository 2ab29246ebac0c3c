//! An expression as a tree and its one canonical spelling (RFC 9804's canonical form, without hints).
//! Used by the makers of cases alone; the readers work on bytes.

#[derive(Clone, Debug, PartialEq, Eq)]
pub enum Expression {
    Text(Vec<u8>),
    List(Vec<Expression>),
}

/// A string of these octets.
pub fn text(octets: impl AsRef<[u8]>) -> Expression {
    Expression::Text(octets.as_ref().to_vec())
}

impl Expression {
    pub fn spell(&self) -> Vec<u8> {
        let mut out = Vec::new();
        self.write(&mut out);
        out
    }

    fn write(&self, out: &mut Vec<u8>) {
        match self {
            Expression::Text(octets) => crate::batch::put(out, octets),
            Expression::List(members) => {
                out.push(b'(');
                for member in members {
                    member.write(out);
                }
                out.push(b')');
            }
        }
    }

    /// The expression that a sound file spells.
    pub fn read(bytes: &[u8]) -> Expression {
        let mut open: Vec<Vec<Expression>> = vec![Vec::new()];
        for (_, token) in crate::carrier::tokens(bytes) {
            let done = match token {
                crate::carrier::Token::Open => {
                    open.push(Vec::new());
                    continue;
                }
                crate::carrier::Token::Close => Expression::List(open.pop().expect("sound")),
                crate::carrier::Token::Text(octets) => text(octets),
            };
            open.last_mut().expect("sound").push(done);
        }
        open.pop().and_then(|mut top| top.pop()).expect("sound")
    }

    /// The number of expressions in it, itself included.
    pub fn size(&self) -> usize {
        match self {
            Expression::Text(_) => 1,
            Expression::List(members) => 1 + members.iter().map(Expression::size).sum::<usize>(),
        }
    }

    /// The expression number `n` in file order, itself being number 0.
    pub fn part(&mut self, n: usize) -> &mut Expression {
        if n == 0 {
            return self;
        }
        let mut left = n - 1;
        if let Expression::List(members) = self {
            for member in members {
                let size = member.size();
                if left < size {
                    return member.part(left);
                }
                left -= size;
            }
        }
        panic!("no such part")
    }
}

/// Canonical bytes from words and parentheses with spaces between: `(use 0 (l))` is `(3:use1:0(1:l))`. The word `~` is
/// the string of no octets.
pub fn plain(words: &str) -> Vec<u8> {
    let mut out = Vec::new();
    let spaced = words.replace('(', " ( ").replace(')', " ) ");
    for word in spaced.split_whitespace() {
        match word {
            "(" | ")" => out.extend_from_slice(word.as_bytes()),
            "~" => crate::batch::put(&mut out, b""),
            _ => crate::batch::put(&mut out, word.as_bytes()),
        }
    }
    out
}
