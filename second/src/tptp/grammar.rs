//! TPTP's grammar of `fof` lines, by descent: one function for each production. Nothing is what the grammar does not
//! allow. What is sound but outside the part that is read is kept as `Outside`, without its inside.

use crate::tptp::tokens::Token;

#[derive(Clone, Debug, PartialEq, Eq)]
pub enum Term {
    Variable(String),
    Function(String, Vec<Term>),
    Outside,
}

#[derive(Clone, Debug, PartialEq, Eq)]
pub enum Formula {
    True,
    Atom(String, Vec<Term>),
    /// A chain, two members or more.
    And(Vec<Formula>),
    Or(Vec<Formula>),
    Implies(Box<Formula>, Box<Formula>),
    /// One variable or more.
    All(Vec<String>, Box<Formula>),
    Some(Vec<String>, Box<Formula>),
    Outside,
}

#[derive(Clone, Debug, PartialEq, Eq)]
pub struct Line {
    /// None where it is no plain lower-case word.
    pub label: Option<String>,
    /// None where something stands behind the word.
    pub role: Option<String>,
    pub formula: Formula,
    pub annotated: bool,
}

/// A parenthesis, bracket or brace, what it encloses and its fellow.
type Pair = (&'static str, &'static str);

pub struct Reader<'a> {
    tokens: &'a [Token<'a>],
    at: usize,
}

fn string(octets: &[u8]) -> String {
    String::from_utf8(octets.to_vec()).expect("words are ASCII")
}

impl<'a> Reader<'a> {
    pub fn new(tokens: &'a [Token<'a>]) -> Reader<'a> {
        Reader { tokens, at: 0 }
    }

    /// The lines of a whole file.
    pub fn file(&mut self) -> Option<Vec<Line>> {
        let mut lines = Vec::new();
        while self.at < self.tokens.len() {
            lines.push(self.line()?);
        }
        Some(lines)
    }

    fn peek(&self) -> Option<Token<'a>> {
        self.tokens.get(self.at).copied()
    }

    fn next(&mut self) -> Option<Token<'a>> {
        self.at += 1;
        self.tokens.get(self.at - 1).copied()
    }

    fn sees(&self, sign: &str) -> bool {
        matches!(self.peek(), Some(Token::Sign(it)) if it == sign)
    }

    fn takes(&mut self, sign: &str) -> bool {
        let seen = self.sees(sign);
        self.at += usize::from(seen);
        seen
    }

    fn sign(&mut self, sign: &str) -> Option<()> {
        self.takes(sign).then_some(())
    }

    /// One or more, with commas between.
    fn several<T>(&mut self, one: fn(&mut Self) -> Option<T>) -> Option<Vec<T>> {
        let mut all = vec![one(self)?];
        while self.takes(",") {
            all.push(one(self)?);
        }
        Some(all)
    }

    /// Between two signs any number, with commas between.
    fn between<T>(&mut self, (open, close): Pair, one: fn(&mut Self) -> Option<T>) -> Option<Vec<T>> {
        self.sign(open)?;
        if self.takes(close) {
            return Some(Vec::new());
        }
        let all = self.several(one)?;
        self.sign(close)?;
        Some(all)
    }

    fn line(&mut self) -> Option<Line> {
        if self.next()? != Token::Lower(b"fof") {
            return None;
        }
        self.sign("(")?;
        let label = match self.next()? {
            Token::Lower(word) => Some(string(word)),
            Token::Quoted | Token::Integer => None,
            _ => return None,
        };
        self.sign(",")?;
        let role = self.role()?;
        self.sign(",")?;
        let formula = self.formula()?;
        let annotated = self.takes(",");
        if annotated {
            self.general_term()?;
            if self.takes(",") {
                self.general_list()?;
            }
        }
        self.sign(")")?;
        self.sign(".")?;
        Some(Line { label, role, formula, annotated })
    }

    fn role(&mut self) -> Option<Option<String>> {
        let Token::Lower(word) = self.next()? else { return None };
        if self.takes("-") {
            self.general_term()?;
            return Some(None);
        }
        Some(Some(string(word)))
    }

    /// A logic formula or a sequent. No logic formula has a bracket or a brace behind its opening parentheses.
    fn formula(&mut self) -> Option<Formula> {
        let inside = self.tokens[self.at..].iter().find(|token| **token != Token::Sign("("));
        if matches!(inside, Some(Token::Sign("[" | "{"))) {
            self.sequent()?;
            return Some(Formula::Outside);
        }
        self.logic()
    }

    fn sequent(&mut self) -> Option<()> {
        if self.takes("(") {
            self.sequent()?;
            return self.sign(")");
        }
        self.tuple()?;
        self.sign("-->")?;
        self.tuple()
    }

    fn tuple(&mut self) -> Option<()> {
        let pair = if self.sees("[") { ("[", "]") } else { ("{", "}") };
        self.between(pair, Self::logic).map(|_| ())
    }

    fn logic(&mut self) -> Option<Formula> {
        let first = self.unit()?;
        let Some(Token::Sign(sign)) = self.peek() else { return Some(first) };
        match sign {
            "&" => Some(Formula::And(self.chain(first, "&")?)),
            "|" => Some(Formula::Or(self.chain(first, "|")?)),
            "=>" | "<=" | "<=>" | "<~>" | "~|" | "~&" => {
                self.at += 1;
                let second = self.unit()?;
                Some(if sign == "=>" { Formula::Implies(first.into(), second.into()) } else { Formula::Outside })
            }
            _ => Some(first),
        }
    }

    fn chain(&mut self, first: Formula, sign: &str) -> Option<Vec<Formula>> {
        let mut members = vec![first];
        while self.takes(sign) {
            members.push(self.unit()?);
        }
        Some(members)
    }

    fn unit(&mut self) -> Option<Formula> {
        match self.peek()? {
            Token::Sign(sign @ ("!" | "?")) => {
                self.at += 1;
                let variables = self.variables()?;
                self.sign(":")?;
                let body = self.unit()?.into();
                Some(if sign == "!" { Formula::All(variables, body) } else { Formula::Some(variables, body) })
            }
            Token::Sign("~") => {
                self.at += 1;
                self.unit()?;
                Some(Formula::Outside)
            }
            Token::Sign("(") => {
                self.at += 1;
                let inside = self.logic()?;
                self.sign(")")?;
                Some(inside)
            }
            _ => self.atom(true),
        }
    }

    fn variables(&mut self) -> Option<Vec<String>> {
        self.sign("[")?;
        let variables = self.several(|reader| match reader.next()? {
            Token::Upper(word) => Some(string(word)),
            _ => None,
        })?;
        self.sign("]")?;
        Some(variables)
    }

    /// Two terms with `=` between them, or `!=` where that may be, or one term that may stand alone.
    fn atom(&mut self, unequal: bool) -> Option<Formula> {
        let (start, begins) = (self.at, self.peek()?);
        let term = self.term()?;
        if self.takes("=") || unequal && self.takes("!=") {
            self.term()?;
            return Some(Formula::Outside);
        }
        match (begins, term) {
            (Token::Lower(_), Term::Function(name, terms)) => Some(Formula::Atom(name, terms)),
            (Token::Dollar(b"$true"), _) if self.at == start + 1 => Some(Formula::True),
            (Token::Quoted | Token::Dollar(_) | Token::System, _) => Some(Formula::Outside),
            _ => None,
        }
    }

    fn term(&mut self) -> Option<Term> {
        match self.next()? {
            Token::Upper(word) => Some(Term::Variable(string(word))),
            Token::Lower(word) => Some(Term::Function(string(word), self.arguments()?)),
            Token::Quoted | Token::Dollar(_) | Token::System => self.arguments().map(|_| Term::Outside),
            Token::Integer | Token::Fraction | Token::Distinct => Some(Term::Outside),
            Token::Sign(_) => None,
        }
    }

    fn arguments(&mut self) -> Option<Vec<Term>> {
        if !self.takes("(") {
            return Some(Vec::new());
        }
        let terms = self.several(Self::term)?;
        self.sign(")")?;
        Some(terms)
    }

    fn general_term(&mut self) -> Option<()> {
        if self.sees("[") {
            return self.general_list();
        }
        self.general_data()?;
        if self.takes(":") {
            return self.general_term();
        }
        Some(())
    }

    fn general_list(&mut self) -> Option<()> {
        self.between(("[", "]"), Self::general_term).map(|_| ())
    }

    fn general_data(&mut self) -> Option<()> {
        match self.next()? {
            Token::Lower(_) | Token::Quoted => {
                if self.takes("(") {
                    self.several(Self::general_term)?;
                    self.sign(")")?;
                }
                Some(())
            }
            Token::Upper(_) | Token::Integer | Token::Fraction | Token::Distinct => Some(()),
            Token::Dollar(b"$fof") => self.enclosed(|reader| reader.formula().map(|_| ())),
            Token::Dollar(b"$cnf") => self.enclosed(Self::clauses),
            Token::Dollar(b"$fot") => self.enclosed(|reader| reader.term().map(|_| ())),
            _ => None,
        }
    }

    fn enclosed(&mut self, inside: fn(&mut Self) -> Option<()>) -> Option<()> {
        self.sign("(")?;
        inside(self)?;
        self.sign(")")
    }

    fn clauses(&mut self) -> Option<()> {
        if self.takes("(") {
            self.clauses()?;
            return self.sign(")");
        }
        self.literal()?;
        while self.takes("|") {
            self.literal()?;
        }
        Some(())
    }

    fn literal(&mut self) -> Option<()> {
        if !self.takes("~") {
            return self.atom(true).map(|_| ());
        }
        let atomic = |reader: &mut Self| reader.atom(false).map(|_| ());
        if self.sees("(") {
            return self.enclosed(atomic);
        }
        atomic(self)
    }
}
