//! The tokens of a TPTP text: longest match from the left; spaces and comments part tokens and are dropped.

#[derive(Clone, Copy, Debug, PartialEq, Eq)]
pub enum Token<'a> {
    /// A lower-case word.
    Lower(&'a [u8]),
    /// An upper-case word.
    Upper(&'a [u8]),
    /// A word in single quotes.
    Quoted,
    /// A text in double quotes.
    Distinct,
    /// A dollar sign and a lower-case word, the dollar sign included.
    Dollar(&'a [u8]),
    /// Two dollar signs and a lower-case word.
    System,
    Integer,
    /// A rational or a real number.
    Fraction,
    Sign(&'static str),
}

/// The signs; of two that begin alike the longer stands first.
const SIGNS: [&str; 24] = [
    "<=>", "<~>", "-->", "!=", "=>", "<=", "~|", "~&", "(", ")", "[", "]", "{", "}", ",", ".", ":", "-", "!", "?", "~",
    "&", "|", "=",
];

/// All tokens; none if some byte outside a comment begins no token, or a comment or a quote has no end.
pub fn tokens(text: &[u8]) -> Option<Vec<Token<'_>>> {
    let mut all = Vec::new();
    let mut at = after_space(text, 0)?;
    while at < text.len() {
        let (token, length) = first(&text[at..])?;
        all.push(token);
        at = after_space(text, at + length)?;
    }
    Some(all)
}

/// Where the next token begins, or the end.
fn after_space(text: &[u8], mut at: usize) -> Option<usize> {
    loop {
        let rest = &text[at..];
        at += match rest.first() {
            Some(9..=13 | 32) => 1,
            Some(b'%') => rest.iter().position(|byte| *byte == 10).unwrap_or(rest.len()),
            Some(b'/') if rest.starts_with(b"/*") => 4 + rest[2..].windows(2).position(|two| two == b"*/")?,
            _ => return Some(at),
        };
    }
}

/// The token that the text begins with, and its length.
fn first(text: &[u8]) -> Option<(Token<'_>, usize)> {
    match text[0] {
        b'a'..=b'z' => Some(word(text)).map(|length| (Token::Lower(&text[..length]), length)),
        b'A'..=b'Z' => Some(word(text)).map(|length| (Token::Upper(&text[..length]), length)),
        b'\'' => quoted(text).filter(|length| *length > 2).map(|length| (Token::Quoted, length)),
        b'"' => quoted(text).map(|length| (Token::Distinct, length)),
        b'$' => dollar(text),
        _ => number(text).or_else(|| sign(text)),
    }
}

/// The length of the letters, digits and underscores that the text begins with.
fn word(text: &[u8]) -> usize {
    text.iter().position(|byte| !byte.is_ascii_alphanumeric() && *byte != b'_').unwrap_or(text.len())
}

/// The length of a quoted text, both quotes included. A backslash stands before a backslash or the quote only.
fn quoted(text: &[u8]) -> Option<usize> {
    let quote = text[0];
    let mut at = 1;
    loop {
        match *text.get(at)? {
            byte if byte == quote => return Some(at + 1),
            b'\\' => {
                let next = *text.get(at + 1)?;
                if next != b'\\' && next != quote {
                    return None;
                }
                at += 2;
            }
            32..=126 => at += 1,
            _ => return None,
        }
    }
}

fn dollar(text: &[u8]) -> Option<(Token<'_>, usize)> {
    let signs = if text.starts_with(b"$$") { 2 } else { 1 };
    if !text.get(signs)?.is_ascii_lowercase() {
        return None;
    }
    let length = signs + word(&text[signs..]);
    Some((if signs == 2 { Token::System } else { Token::Dollar(&text[..length]) }, length))
}

fn digits(text: &[u8]) -> usize {
    text.iter().position(|byte| !byte.is_ascii_digit()).unwrap_or(text.len())
}

/// The length of a decimal, which is 0 or begins with another digit than 0; 0 if there is none.
fn decimal(text: &[u8]) -> usize {
    if text.first() == Some(&b'0') {
        return 1;
    }
    digits(text)
}

fn number(text: &[u8]) -> Option<(Token<'_>, usize)> {
    let sign = usize::from(matches!(text[0], b'+' | b'-'));
    let whole = decimal(&text[sign..]);
    if whole == 0 {
        return None;
    }
    let length = sign + whole;
    let rest = &text[length..];
    if rest.first() == Some(&b'/') && matches!(rest.get(1), Some(b'1'..=b'9')) {
        return Some((Token::Fraction, length + 1 + digits(&rest[1..])));
    }
    let part = if rest.first() == Some(&b'.') { digits(&rest[1..]) } else { 0 };
    let fraction = if part > 0 { part + 1 } else { 0 };
    let exponent = exponent(&rest[fraction..]);
    if fraction + exponent == 0 {
        return Some((Token::Integer, length));
    }
    Some((Token::Fraction, length + fraction + exponent))
}

/// The length of an exponent, 0 if there is none.
fn exponent(text: &[u8]) -> usize {
    if !matches!(text.first(), Some(b'e' | b'E')) {
        return 0;
    }
    let sign = usize::from(matches!(text.get(1), Some(b'+' | b'-')));
    let digits = digits(&text[1 + sign..]);
    if digits == 0 {
        return 0;
    }
    1 + sign + digits
}

fn sign(text: &[u8]) -> Option<(Token<'_>, usize)> {
    let sign = SIGNS.iter().find(|sign| text.starts_with(sign.as_bytes()))?;
    Some((Token::Sign(sign), sign.len()))
}
