//! The order of refusals, the words and the fit where document 01 was read closely: one test for each open point.

use second::expression::plain;
use second::refusals::{packet, read, Refusal};
use second::table::Kind;
use second::verdict::{judge, search, Files, ROOM};

fn refused(kind: Kind, bytes: &[u8]) -> Option<(u8, usize)> {
    read(kind, bytes).err().map(|refusal| (refusal.number, refusal.place))
}

fn words(kind: Kind, words: &str) -> Option<(u8, usize)> {
    refused(kind, &plain(words))
}

#[test]
fn each_number_is_asked_of_the_whole_file() {
    assert_eq!(refused(Kind::Goal, &[b'('; 65]), Some((2, 65)));
    assert_eq!(refused(Kind::Goal, &[b'('; 16_385]), Some((1, 16_384)));
    let deep = format!("(nor {}{})", "(all ".repeat(64), ")".repeat(64));
    assert_eq!(words(Kind::Goal, &deep), Some((3, 6 + 63 * 6)));
    let many = "(atom p)".repeat(256);
    assert_eq!(words(Kind::Rules, &format!("(rules {many} (nor))")), Some((4, 8 + 256 * 11 + 1)));
    assert_eq!(words(Kind::Rules, &format!("(rules (atom p (v 0)) {many})")), Some((6, 8 + 19 + 255 * 11)));
    assert_eq!(words(Kind::Rules, "(rules (atom p (v 0)))"), Some((5, 8 + 10)));
}

fn refusal<T>(number: u8, file: u8, place: usize) -> Result<T, Refusal> {
    Err(Refusal { number, file, place })
}

#[test]
fn files_in_turn() {
    let long = vec![b'('; 16_385];
    let barred = plain("(rules (atom p (v 0)))");
    assert_eq!(packet(&barred, &long, b"", Some(b"")), refusal(5, 1, 18));
    assert_eq!(packet(b"(5:rules)", &long, b"", Some(b"")), refusal(1, 2, 16_384));
    assert_eq!(packet(b"(5:rules)", b"(3:top)", b"", Some(b"")), refusal(2, 3, 0));
    assert_eq!(packet(b"(5:rules)", b"(3:top)", b"(5:terms)", Some(b"")), refusal(2, 4, 0));
    assert_eq!(packet(b"(5:rules)", b"(3:top)", b"(5:terms)", None), Ok((0, 0)));
    let files = Files { rules: &barred, goal: &long, terms: b"" };
    assert_eq!(judge(files, b"", ROOM - 1), refusal(11, 0, 0));
    assert_eq!(search(files, 33, 0, ROOM - 1, 0), Ok(refusal(11, 0, 0)));
    assert_eq!(search(files, 33, 0, ROOM, 0), Ok(refusal(9, 0, 0)));
    assert_eq!(search(files, 0, 0, ROOM, 0), Ok(refusal(5, 1, 18)));
}

#[test]
fn the_word_is_the_first_member() {
    assert_eq!(words(Kind::Goal, "()"), Some((4, 1)));
    assert_eq!(words(Kind::Goal, "((top))"), Some((4, 1)));
    assert_eq!(words(Kind::Goal, "top"), Some((4, 0)));
    assert_eq!(words(Kind::Goal, "(top (top))"), Some((4, 6)));
    assert_eq!(words(Kind::Goal, "(and (top))"), Some((4, 13)));
    assert_eq!(words(Kind::Strip, "(use 0)"), Some((4, 9)));
    assert_eq!(words(Kind::Strip, "(use 0 ())"), None);
    assert_eq!(words(Kind::Strip, "(use 0 () (top) (top))"), Some((4, 18)));
    assert_eq!(words(Kind::Strip, "(use 0 (l r 0 999 1000))"), Some((4, 21 + 3)));
    assert_eq!(words(Kind::Strip, "(v 0)"), Some((4, 1)));
    assert_eq!(words(Kind::Rules, "(rules (imp (top) (all (atom p))))"), Some((4, 22)));
    assert_eq!(words(Kind::Rules, "(rules (imp (top) (and (atom p) (atom p))))"), Some((4, 22)));
    assert_eq!(words(Kind::Rules, "(rules (or (atom p) (atom p)))"), Some((4, 9)));
    assert_eq!(words(Kind::Terms, "(rules)"), Some((4, 1)));
}

#[test]
fn names_and_numbers() {
    let name = |name: &[u8]| {
        let mut file = b"(4:atom".to_vec();
        second::batch::put(&mut file, name);
        file.push(b')');
        refused(Kind::Goal, &file)
    };
    for good in [&b"a"[..], b"z9_", &[b'q'; 32], b"all", b"v", b"top"] {
        assert_eq!(name(good), None);
    }
    for bad in [&b""[..], &[b'q'; 33], b"P", b"_a", b"1a", b"a-b", b"a\0", b"a\xc8", b"\xc8"] {
        assert_eq!(name(bad), Some((4, 7)));
    }
    assert_eq!(words(Kind::Terms, "(terms (e 1000))"), Some((4, 8 + 4)));
    assert_eq!(words(Kind::Terms, "(terms (e 999))"), Some((5, 8)));
    assert_eq!(words(Kind::Terms, "(terms (e 64) (e 1))"), None);
    assert_eq!(words(Kind::Terms, "(terms (e 64) (e 0))"), Some((5, 8 + 9)));
    assert_eq!(words(Kind::Terms, "(terms (f c (e 65)))"), Some((5, 8 + 7)));
    assert_eq!(words(Kind::Terms, "(terms (e 01))"), Some((4, 12)));
    assert_eq!(words(Kind::Terms, "(terms (v 0))"), Some((5, 8)));
    assert_eq!(words(Kind::Goal, "(some (atom p (e 1)))"), Some((5, 17)));
}

#[test]
fn quantifiers_across_imp_within_the_own_clause() {
    let file = "(rules (all (imp (some (atom p (v 1))) (atom q (v 0)))))";
    assert_eq!(words(Kind::Rules, file), None);
    assert_eq!(words(Kind::Rules, &file.replace("v 1", "v 2")).map(|(number, _)| number), Some(5));
    assert_eq!(words(Kind::Rules, &file.replace("q (v 0)", "q (v 1)")).map(|(number, _)| number), Some(5));
    assert_eq!(words(Kind::Rules, "(rules (all (atom p)) (atom q (v 0)))").map(|(number, _)| number), Some(5));
    assert_eq!(words(Kind::Goal, "(all (imp (atom p (v 0)) (atom all (f some (v 0)))))"), None);
}
