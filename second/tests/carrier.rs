//! RFC 9804's canonical examples, document 01's case 11 for the carrier, and the carrier's points of the open decisions.

use second::carrier::{judge, Carrier::*};

#[test]
fn examples_of_the_rfc() {
    for (number, file) in second::examples::canonical().iter().enumerate() {
        let hinted = number == 1;
        assert_eq!(judge(file.as_bytes(), 64), if hinted { Fault(7) } else { Sound }, "{file}");
    }
}

#[test]
fn case_11() {
    assert_eq!(judge(b"", 64), Fault(0));
    assert_eq!(judge(b"01:a", 64), Fault(1));
    assert_eq!(judge(b"1:a", 64), Sound);
}

#[test]
fn one_expression_and_not_a_byte_more() {
    assert_eq!(judge(b"3:abc\n", 64), Fault(5));
    assert_eq!(judge(b" 3:abc", 64), Fault(0));
    assert_eq!(judge(b"()()", 64), Fault(2));
    assert_eq!(judge(b"(1:a", 64), Fault(4));
    assert_eq!(judge(b")", 64), Fault(0));
    assert_eq!(judge(b"(3abc)", 64), Fault(2));
    assert_eq!(judge(b"(1:a[1:b]1:c)", 64), Fault(4));
    assert_eq!(judge(b"(1:\0)", 64), Sound);
}

#[test]
fn lengths_of_any_number_of_digits() {
    assert_eq!(judge(b"4294967299:abc", 64), Fault(14));
    assert_eq!(judge(b"18446744073709551619:abc", 64), Fault(24));
    let many = "9".repeat(5000);
    assert_eq!(judge(many.as_bytes(), 64), Fault(5000));
    assert_eq!(judge((many.clone() + ":").as_bytes(), 64), Fault(5001));
    assert_eq!(judge((many + "a:").as_bytes(), 64), Fault(5000));
}

#[test]
fn a_fault_comes_before_too_deep() {
    let open = "(".repeat(65);
    let close = ")".repeat(65);
    assert_eq!(judge(open.as_bytes(), 64), Fault(65));
    assert_eq!(judge((open.clone() + &close).as_bytes(), 64), Deep(64));
    assert_eq!(judge((open.clone() + &close).as_bytes(), 65), Sound);
    assert_eq!(judge((open + &close + ")").as_bytes(), 64), Fault(130));
    assert_eq!(judge(b"()", 0), Deep(0));
    assert_eq!(judge(b"1:a", 0), Sound);
    assert_eq!(judge(b"(()(()))", 2), Deep(4));
}

/// The place of a fault against its meaning: a beginning can be completed exactly if it is not longer than the place.
/// Asked of the short texts with at most two digits, 0 or 1, so that no length is above 11.
#[test]
fn the_place_of_a_fault_by_its_meaning() {
    let cases = second::make::carrier::cases();
    let mut asked = 0;
    for case in second::batch::cases(&cases, 2).unwrap() {
        let file = case[1];
        let digits = file.iter().filter(|byte| byte.is_ascii_digit()).count();
        if file.len() > 4 || digits > 2 || file.iter().any(|byte| (b'2'..=b'9').contains(byte)) {
            continue;
        }
        let place = match judge(file, 64) {
            Fault(place) => place,
            _ => file.len(),
        };
        let long = (0..=file.len()).filter(|length| completable(&file[..*length])).max();
        assert_eq!(long, Some(place), "{file:?}");
        asked += 1;
    }
    assert!(asked > 1000);
}

/// Whether this beginning can be completed: by a colon or none, up to 12 octets, and up to five closing parentheses.
fn completable(begun: &[u8]) -> bool {
    let colons: [&[u8]; 3] = [b"", b":", b"0:"];
    let octets = [0, 1, 2, 3, 8, 9, 10, 11, 12];
    colons.iter().any(|colon| {
        octets.iter().any(|octets| {
            (0..6).any(|close| judge(&[begun, colon, &vec![b'x'; *octets], &vec![b')'; close]].concat(), 64) == Sound)
        })
    })
}
