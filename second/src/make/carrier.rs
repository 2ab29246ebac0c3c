//! Carrier cases: RFC 9804's examples, document 01's case 11, the bad inputs, every short text over seven bytes,
//! and sound expressions by chance, most of them damaged.

use crate::batch::put;
use crate::chance::Chance;
use crate::expression::{text, Expression};

/// The case file: for each case the limit and the file.
pub fn cases() -> Vec<u8> {
    let mut out = Vec::new();
    for file in crate::examples::canonical() {
        case(&mut out, 64, file);
    }
    known(&mut out);
    lengths(&mut out);
    nested(&mut out);
    long(&mut out);
    short(&mut out);
    by_chance(&mut out);
    out
}

fn case(out: &mut Vec<u8>, limit: usize, file: impl AsRef<[u8]>) {
    put(out, limit.to_string().as_bytes());
    put(out, file.as_ref());
}

/// Faults that have a name, and their sound neighbours.
const KNOWN: [&[u8]; 62] = [
    b"",
    b"01:a",
    b"0:",
    b"1:a",
    b"00:",
    b"0",
    b"1",
    b"10",
    b":",
    b":a",
    b"1a",
    b"1a:",
    b"3abc",
    b"3:ab",
    b"3:abc",
    b"3:abcd",
    b"3:abc\n",
    b" 3:abc",
    b"\n",
    b"(",
    b")",
    b"()",
    b"())",
    b"(()",
    b"(()())",
    b"()()",
    b"(1:a",
    b"(1:a)",
    b"(1:a))",
    b"(1:a)(",
    b"(1:a)1:b",
    b"1:a1:b",
    b"1:a(",
    b"1:a)",
    b"(01:a)",
    b"(1:a01:b)",
    b"(1:a 1:b)",
    b"( 1:a)",
    b"(1:a )",
    b"(1:a)\n",
    b"[1:a]1:b",
    b"([1:a]1:b)",
    b"[",
    b"]",
    b"([",
    b"(])",
    b"[1:a",
    b"[1:a]",
    b"[1:a](1:b)",
    b"(1:[1:])",
    b"1:\0",
    b"\0",
    b"(\0)",
    b"(1:\0\0)",
    b"1:\xff",
    b"\xff",
    b"3\0:abc",
    b"-1:a",
    b"+1:a",
    b"1.:a",
    b"{KDE6YTE6YjE6Yyk=}",
    b"(issuer bob)",
];

fn known(out: &mut Vec<u8>) {
    for file in KNOWN {
        for limit in [64, 0] {
            case(out, limit, file);
        }
    }
}

/// Lengths around the powers of two.
const NEAR: [&str; 22] = [
    "255",
    "256",
    "257",
    "259",
    "65535",
    "65536",
    "65539",
    "2147483647",
    "2147483648",
    "2147483651",
    "4294967295",
    "4294967296",
    "4294967299",
    "9223372036854775807",
    "9223372036854775808",
    "9223372036854775811",
    "18446744073709551615",
    "18446744073709551616",
    "18446744073709551619",
    "340282366920938463463374607431768211455",
    "340282366920938463463374607431768211456",
    "340282366920938463463374607431768211459",
];

/// Lengths around the powers of two, past the end of the file, and of thousands of digits.
fn lengths(out: &mut Vec<u8>) {
    for length in NEAR {
        case(out, 64, format!("{length}:abc"));
        case(out, 64, format!("({length}:abc)"));
        case(out, 64, format!("(3:abc{length}:)"));
    }
    for digits in [20, 40, 1000, 3000] {
        case(out, 64, "9".repeat(digits));
        case(out, 64, "9".repeat(digits) + ":abc");
        case(out, 64, format!("(1{}:abc)", "0".repeat(digits)));
        case(out, 64, format!("(1{}3:abc)", "0".repeat(digits)));
        case(out, 64, format!("(0{}:abc)", "0".repeat(digits)));
        case(out, 64, format!("1{}a:abc", "0".repeat(digits)));
    }
    for length in [9, 10, 11, 99, 100, 101, 999, 1000, 1001] {
        for there in [length - 1, length, length + 1] {
            case(out, 64, format!("{length}:{}", "x".repeat(there)));
        }
    }
}

/// Nesting at, below and above the limit, closed and not.
fn nested(out: &mut Vec<u8>) {
    for limit in [0, 1, 2, 3, 10, 63, 64, 65, 66] {
        for depth in limit..limit + 3 {
            let (open, close) = ("(".repeat(depth), ")".repeat(depth));
            case(out, limit, format!("{open}{close}"));
            case(out, limit, format!("{open}1:a{close}"));
            case(out, limit, format!("{open}{close})"));
            case(out, limit, format!("({open}{close}{open}{close})"));
            case(out, limit, format!("(1:a{open}1:b{close}1:c{open}(){close}1:d)"));
            if depth > 0 {
                case(out, limit, format!("{open}{}", &close[1..]));
                case(out, limit, format!("{open}01:a{close}"));
                case(out, limit, format!("{open}1:({close}"));
            }
        }
    }
    case(out, 64, "(".repeat(65));
}

/// Long files: 16,384 opening parentheses, and files far longer than 16,384 bytes.
fn long(out: &mut Vec<u8>) {
    case(out, 64, "(".repeat(16_384));
    case(out, 64, "(".repeat(8_192) + &")".repeat(8_192));
    case(out, 66, format!("(30000:{})", "y".repeat(30_000)));
    case(out, 64, format!("(17000:{}1:a", "\0".repeat(17_000)));
    case(out, 64, format!("({})", "()1:(0:".repeat(2_400)));
    case(out, 64, format!("({}]", "1:)".repeat(5_500)));
}

/// Every text of up to four of these seven bytes, and of five that opens a list.
fn short(out: &mut Vec<u8>) {
    let bytes = b"()01:a[";
    let mut texts: Vec<Vec<u8>> = vec![Vec::new()];
    for length in 0..5 {
        let mut longer = Vec::new();
        for begun in texts.iter().filter(|begun| length < 4 || begun[0] == b'(') {
            for byte in bytes {
                let mut more = begun.clone();
                more.push(*byte);
                case(out, 1, &more);
                longer.push(more);
            }
        }
        texts = longer;
    }
}

fn by_chance(out: &mut Vec<u8>) {
    let mut chance = Chance::new(2);
    for _ in 0..3_500 {
        let depth = chance.below(6);
        let mut file = expression(&mut chance, depth).spell();
        if file.len() > 400 {
            continue;
        }
        for _ in 0..chance.below(3) {
            damage(&mut chance, &mut file);
        }
        let limit = *chance.of(&[0, 1, 2, 3, 4, 5, 64, 66]);
        case(out, limit, file);
    }
}

/// A sound expression that nests at most `depth`.
pub fn expression(chance: &mut Chance, depth: usize) -> Expression {
    if depth == 0 || chance.once_in(4) {
        let length = *chance.of(&[0, 1, 1, 2, 3, 5, 9, 10, 11, 12]);
        return text((0..length).map(|_| octet(chance)).collect::<Vec<u8>>());
    }
    Expression::List((0..chance.below(5)).map(|_| expression(chance, depth - 1)).collect())
}

/// An octet, mostly one that means something outside a string.
fn octet(chance: &mut Chance) -> u8 {
    match chance.below(4) {
        0 => *chance.of(b"()[]:0123456789"),
        1 => chance.byte(),
        _ => b'a' + chance.below(26) as u8,
    }
}

/// One change of one byte or of a stretch of bytes.
pub fn damage(chance: &mut Chance, file: &mut Vec<u8>) {
    let at = chance.below(file.len() + 1);
    if at == file.len() {
        let byte = octet(chance);
        file.push(byte);
        return;
    }
    match chance.below(7) {
        0 => drop(file.remove(at)),
        1 => file.truncate(at),
        2 => file[at] = octet(chance),
        3 => file[at] = *chance.of(b"()[]:0123456789"),
        4 => file.insert(at, *chance.of(b"()[]:0123456789")),
        5 => file.swap(at, chance.below(at + 1)),
        _ => {
            let end = (at + chance.below(8)).min(file.len());
            let again = file[at..end].to_vec();
            file.splice(at..at, again);
        }
    }
}
