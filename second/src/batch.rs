//! The case files: strings one after another, each its length in decimal, a colon and that many octets (README.md).

/// Adds one string.
pub fn put(out: &mut Vec<u8>, octets: &[u8]) {
    out.extend_from_slice(octets.len().to_string().as_bytes());
    out.push(b':');
    out.extend_from_slice(octets);
}

/// Cuts a case file into cases of `fields` strings each.
pub fn cases(bytes: &[u8], fields: usize) -> Result<Vec<Vec<&[u8]>>, String> {
    let mut all = Vec::new();
    let mut at = 0;
    while at < bytes.len() {
        let mut case = Vec::with_capacity(fields);
        for _ in 0..fields {
            let (octets, end) = take(bytes, at).ok_or_else(|| format!("no string at offset {at} of the case file"))?;
            case.push(octets);
            at = end;
        }
        all.push(case);
    }
    Ok(all)
}

fn take(bytes: &[u8], at: usize) -> Option<(&[u8], usize)> {
    let colon = at + bytes.get(at..)?.iter().position(|b| *b == b':')?;
    let length = number(&bytes[at..colon])?;
    let end = (colon + 1).checked_add(length)?;
    Some((bytes.get(colon + 1..end)?, end))
}

/// A decimal number.
pub fn number(octets: &[u8]) -> Option<usize> {
    if octets.is_empty() || !octets.iter().all(u8::is_ascii_digit) {
        return None;
    }
    std::str::from_utf8(octets).ok()?.parse().ok()
}
