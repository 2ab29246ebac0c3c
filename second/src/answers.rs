//! The answers to a case file, one line for each case, and how often each answer was given.

use crate::batch;
use crate::carrier::{self, Carrier};
use crate::counts::{self, USES};
use crate::refusals::{packet, Refusal};
use crate::search::Search;
use crate::strip::Node;
use crate::verdict::{judge, search, Files, HEIGHT, ROOM};

/// `sound`, `fault PLACE` or `deep PLACE` for each carrier case.
pub fn carrier(bytes: &[u8]) -> Result<Vec<String>, String> {
    batch::cases(bytes, 2)?.into_iter().map(|case| Ok(carrier_line(number(case[0])?, case[1]))).collect()
}

fn carrier_line(limit: usize, file: &[u8]) -> String {
    match carrier::judge(file, limit) {
        Carrier::Sound => "sound".to_string(),
        Carrier::Fault(place) => format!("fault {place}"),
        Carrier::Deep(place) => format!("deep {place}"),
    }
}

/// `sound RULES CANDIDATES` or `refused NUMBER FILE PLACE` for each packet case, with the places of request Two.
pub fn packets(bytes: &[u8]) -> Result<Vec<String>, String> {
    batch::cases(bytes, 5)?
        .into_iter()
        .map(|case| {
            let strip = (number(case[0])? == 4).then_some(case[4]);
            Ok(match packet(case[1], case[2], case[3], strip) {
                Ok((rules, candidates)) => format!("sound {rules} {candidates}"),
                Err(refusal) => refused(refusal, true),
            })
        })
        .collect()
}

/// A refusal as a line. Document 01 shows place 0 but for number 7; request Two shows every place.
pub fn refused(refusal: Refusal, places: bool) -> String {
    let place = if places || refusal.number == 7 { refusal.place } else { 0 };
    format!("refused {} {} {}", refusal.number, refusal.file, place)
}

/// How often each answer was given, places apart.
pub fn carrier_counts(lines: &[String]) -> Vec<(String, usize)> {
    ["sound", "fault", "deep"].iter().map(|word| (word.to_string(), starting(lines, word))).collect()
}

/// How often each answer was given, places apart.
pub fn packet_counts(lines: &[String]) -> Vec<(String, usize)> {
    let mut words = vec!["sound".to_string()];
    words.extend(reading_refusals());
    words.into_iter().map(|word| (word.clone(), starting(lines, &word))).collect()
}

/// Refusals 1 to 6 of each file that can have them.
pub fn reading_refusals() -> Vec<String> {
    let files: [(u8, &[u8]); 6] =
        [(1, &[1, 2, 3, 4]), (2, &[1, 2, 3, 4]), (3, &[1, 2, 3, 4]), (4, &[1, 2, 3, 4]), (5, &[1, 2, 3]), (6, &[1, 3])];
    files.iter().flat_map(|(number, files)| files.iter().map(move |file| format!("refused {number} {file}"))).collect()
}

/// The lines that begin with these words.
pub fn starting(lines: &[String], words: &str) -> usize {
    lines
        .iter()
        .filter(|line| line.strip_prefix(words).is_some_and(|rest| rest.is_empty() || rest.starts_with(' ')))
        .count()
}

/// A number in a case file.
pub fn number(octets: &[u8]) -> Result<usize, String> {
    batch::number(octets).ok_or_else(|| format!("no number: {octets:?}"))
}

/// `accepted HEIGHT NODES` or `refused NUMBER FILE PLACE` for each judge case.
pub fn judged(bytes: &[u8], places: bool) -> Result<Vec<String>, String> {
    let lines = batch::cases(bytes, 4)?.into_iter().map(|case| judge_line(&case, places));
    Ok(lines.collect())
}

/// The line for rules, goal, terms and strip.
pub fn judge_line(files: &[&[u8]], places: bool) -> String {
    match judge(three(files), files[3], ROOM) {
        Ok(strip) => format!("accepted {} {}", strip.height(), strip.nodes()),
        Err(refusal) => refused(refusal, places),
    }
}

fn three<'a>(files: &[&'a [u8]]) -> Files<'a> {
    Files { rules: files[0], goal: files[1], terms: files[2] }
}

/// How often each answer was given, places apart; and what the accepted strips use.
pub fn judge_counts(bytes: &[u8]) -> Result<Vec<(String, usize)>, String> {
    let lines = judged(bytes, false)?;
    let mut words = vec!["accepted".to_string()];
    words.extend(reading_refusals());
    words.push("refused 7 4".to_string());
    let mut counts: Vec<_> = words.into_iter().map(|word| (word.clone(), starting(&lines, &word))).collect();
    let mut uses = [0; USES.len()];
    for case in batch::cases(bytes, 4)? {
        if let (Ok(packet), Ok(strip)) = (three(&case).packet(), judge(three(&case), case[3], ROOM)) {
            add(&mut uses, &counts::uses(&packet, &strip));
        }
    }
    counts.extend(USES.iter().map(|what| format!("accepted and {what}")).zip(uses));
    let fitting = starting(&lines, "accepted") + starting(&lines, "refused 7 4");
    if 3 * fitting < lines.len() {
        return Err(format!("only {fitting} of {} packets reach the fitting of nodes", lines.len()));
    }
    counts.push(("packets that reach the fitting of nodes".to_string(), fitting));
    counts.push(("packets".to_string(), lines.len()));
    Ok(counts)
}

/// `found HEIGHT NODES LENGTH STRIP` or `refused NUMBER FILE PLACE` for each search case.
pub fn searched(bytes: &[u8], places: bool) -> Result<Vec<String>, String> {
    let cases = batch::cases(bytes, 5)?;
    cases.iter().map(|case| Ok(search_line(three(case), number(case[3])?, number(case[4])?, places))).collect()
}

/// The line for three files, a height and a buffer's size.
pub fn search_line(files: Files, height: usize, size: usize, places: bool) -> String {
    match search(files, height, size, ROOM, u64::MAX).expect("no end of looks") {
        Ok((node, strip)) => {
            let text = String::from_utf8_lossy(&strip);
            format!("found {} {} {} {text}", node.height(), node.nodes(), strip.len())
        }
        Err(refusal) => refused(refusal, places),
    }
}

/// How often each answer was given, places apart; how often on either side of a limit; and what the strips use.
pub fn search_counts(bytes: &[u8]) -> Result<Vec<(String, usize)>, String> {
    let lines = searched(bytes, false)?;
    let mut words = vec!["found".to_string()];
    words.extend(reading_refusals().into_iter().filter(|word| !word.ends_with('4')));
    words.extend(["refused 8 0", "refused 9 0", "refused 10 0"].map(str::to_string));
    let mut counts: Vec<_> = words.into_iter().map(|word| (word.clone(), starting(&lines, &word))).collect();
    let mut edges = [0; EDGES.len()];
    let mut uses = [0; USES.len()];
    for case in batch::cases(bytes, 5)? {
        let (files, height, size) = (three(&case), number(case[3])?, number(case[4])?);
        let Ok(packet) = files.packet() else { continue };
        let node = Search::new(&packet.candidates, u64::MAX).goal(&packet.goal, &packet.rules, 0, height.min(HEIGHT));
        let node = node.expect("no end of looks");
        add(&mut edges, &edge(node.as_ref(), height, size));
        if let Ok(Ok((node, _))) = search(files, height, size, ROOM, u64::MAX) {
            add(&mut uses, &counts::uses(&packet, &node));
        }
    }
    counts.extend(EDGES.map(str::to_string).into_iter().zip(edges));
    counts.extend(USES.iter().map(|what| format!("found and {what}")).zip(uses));
    counts.push(("searches".to_string(), lines.len()));
    Ok(counts)
}

/// Counts what was seen.
pub fn add(counts: &mut [usize], seen: &[bool]) {
    counts.iter_mut().zip(seen).for_each(|(count, seen)| *count += usize::from(*seen));
}

/// The limits whose two sides are counted.
const EDGES: [&str; 8] = [
    "found that fills its buffer",
    "refused 10 for one byte",
    "found of 16384 bytes",
    "refused 10 for 16385 bytes in a larger buffer",
    "refused 8 in a buffer of no bytes",
    "found of height 32",
    "refused 8 at height 32",
    "refused 9 at height 33",
];

/// Which of these it is, from the first strip whatever its length.
fn edge(node: Option<&Node>, height: usize, size: usize) -> [bool; EDGES.len()] {
    let length = node.map(|node| crate::spell::strip(node).len());
    let within = height <= HEIGHT;
    [
        within && length == Some(size),
        within && length == Some(size + 1),
        within && length == Some(16_384) && size >= 16_384,
        within && length == Some(16_385) && size > 16_384,
        within && length.is_none() && size == 0,
        within && node.is_some_and(|node| node.height() == 32),
        height == 32 && length.is_none(),
        height == 33,
    ]
}
