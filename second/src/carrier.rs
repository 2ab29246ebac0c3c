//! The carrier: canonical S-expressions, after document 01 ("The carrier and the words") and RFC 9804's canonical form.
//! Judges any bytes for a limit of nesting, with the places that document 02 (Two) asks, and cuts a sound file into
//! tokens. Display hints are faults here (document 01); the words inside the strings are none of this file's business.

/// What the carrier says of a whole file.
#[derive(Clone, Copy, Debug, PartialEq, Eq)]
pub enum Carrier {
    Sound,
    /// The length of the longest beginning that some canonical expression also begins with.
    Fault(usize),
    /// The first parenthesis above the limit.
    Deep(usize),
}

/// One token of a sound file.
#[derive(Clone, Copy, Debug, PartialEq, Eq)]
pub enum Token<'a> {
    Open,
    Close,
    Text(&'a [u8]),
}

/// A token and the offset of its first byte (of a string: the first digit of its length).
pub type Placed<'a> = (usize, Token<'a>);

/// Judges a whole file. A fault comes before too deep.
pub fn judge(bytes: &[u8], limit: usize) -> Carrier {
    let mut at = 0;
    let mut open = 0;
    let mut deep = None;
    loop {
        match bytes.get(at) {
            Some(b'(') => {
                if open == limit && deep.is_none() {
                    deep = Some(at);
                }
                open += 1;
                at += 1;
            }
            Some(b')') if open > 0 => {
                open -= 1;
                at += 1;
            }
            Some(b'0'..=b'9') => match string(bytes, at) {
                Ok((_, end)) => at = end,
                Err(place) => return Carrier::Fault(place),
            },
            _ => return Carrier::Fault(at),
        }
        if open == 0 {
            break;
        }
    }
    if at < bytes.len() {
        return Carrier::Fault(at);
    }
    deep.map_or(Carrier::Sound, Carrier::Deep)
}

/// The string whose first digit stands at `at`: where its octets begin and end; or the place of the fault.
fn string(bytes: &[u8], at: usize) -> Result<(usize, usize), usize> {
    let mut colon = at;
    let mut length: usize = 0;
    while let Some(digit @ b'0'..=b'9') = bytes.get(colon) {
        if colon == at + 1 && bytes[at] == b'0' {
            return Err(colon);
        }
        length = length.saturating_mul(10).saturating_add(usize::from(digit - b'0'));
        colon += 1;
    }
    if bytes.get(colon) != Some(&b':') {
        return Err(colon);
    }
    let first = colon + 1;
    if length > bytes.len() - first {
        return Err(bytes.len());
    }
    Ok((first, first + length))
}

/// The tokens of a sound file, in file order.
pub fn tokens(bytes: &[u8]) -> Vec<Placed<'_>> {
    let mut all = Vec::new();
    let mut at = 0;
    while at < bytes.len() {
        let start = at;
        let token = match bytes[at] {
            b'(' => Token::Open,
            b')' => Token::Close,
            _ => {
                let (first, end) = string(bytes, at).expect("tokens are asked of sound files only");
                at = end - 1;
                Token::Text(&bytes[first..end])
            }
        };
        at += 1;
        all.push((start, token));
    }
    all
}
