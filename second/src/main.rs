//! The command line of the second program (README.md).

use std::io::{Read, Write};
use std::process::ExitCode;

use second::search::Search;
use second::verdict::{Files, HEIGHT};
use second::{answers, make, tptp};

fn main() -> ExitCode {
    let words: Vec<String> = std::env::args().skip(1).collect();
    match run(&words) {
        Ok(out) => match std::io::stdout().write_all(&out) {
            Ok(()) if out.starts_with(b"refused") && words[0].find('-').is_none() => ExitCode::from(1),
            Ok(()) => ExitCode::SUCCESS,
            Err(_) => ExitCode::from(2),
        },
        Err(why) => {
            eprintln!("second: {why}");
            ExitCode::from(2)
        }
    }
}

fn run(words: &[String]) -> Result<Vec<u8>, String> {
    match words.first().map_or("", String::as_str) {
        "carrier-cases" => Ok(make::carrier::cases()),
        "carrier-answers" => answers::carrier(&input()?).map(lines),
        "carrier-counts" => counts(answers::carrier_counts(&answers::carrier(&input()?)?)),
        "packet-cases" => Ok(make::packets::cases(part(words, make::packets::PARTS)?)),
        "packet-answers" => answers::packets(&input()?).map(lines),
        "packet-counts" => counts(answers::packet_counts(&answers::packets(&input()?)?)),
        "judge-cases" => Ok(make::judging::cases(part(words, make::judging::PARTS)?)),
        "judge-answers" => answers::judged(&input()?, places(words)).map(lines),
        "judge-counts" => counts(answers::judge_counts(&input()?)?),
        "search-cases" => Ok(make::searching::cases(part(words, make::searching::PARTS)?)),
        "search-answers" => answers::searched(&input()?, places(words)).map(lines),
        "search-counts" => counts(answers::search_counts(&input()?)?),
        "tptp-cases" => Ok(make::tptp::cases(part(words, make::tptp::PARTS)?)),
        "tptp-answers" => tptp::answers::answers(&input()?).map(lines),
        "tptp-counts" => counts(tptp::answers::counts(&input()?)?),
        "tptp" => convert(words),
        "judge" => judge(words),
        "search" => search(words),
        "looks" => looks(words),
        _ => Err("which of the subcommands in README.md?".to_string()),
    }
}

/// `judge DIR`: the verdict on the packet in this folder.
fn judge(words: &[String]) -> Result<Vec<u8>, String> {
    let folder = words.get(1).ok_or("judge DIR [--places]")?;
    let files = ["rules.sx", "goal.sx", "terms.sx", "strip.sx"].map(|name| file(folder, name));
    let line = answers::judge_line(&files.each_ref().map(Vec::as_slice), places(words));
    Ok(lines(vec![line]))
}

/// `search DIR HEIGHT [SIZE]`: the first strip for the packet in this folder.
fn search(words: &[String]) -> Result<Vec<u8>, String> {
    let usage = || "search DIR HEIGHT [SIZE] [--places]".to_string();
    let folder = words.get(1).ok_or_else(usage)?;
    let height = words.get(2).and_then(|word| decimal(word)).ok_or_else(usage)?;
    let size = match words.get(3).filter(|word| *word != "--places") {
        Some(word) => decimal(word).ok_or_else(usage)?,
        None => 16_384,
    };
    let [rules, goal, terms] = ["rules.sx", "goal.sx", "terms.sx"].map(|name| file(folder, name));
    let files = Files { rules: &rules, goal: &goal, terms: &terms };
    Ok(lines(vec![answers::search_line(files, height, size, places(words))]))
}

/// `tptp FILE`: the rules and the goal that a TPTP text becomes.
fn convert(words: &[String]) -> Result<Vec<u8>, String> {
    let name = words.get(1).ok_or("tptp FILE")?;
    let text = std::fs::read(name).unwrap_or_default();
    Ok(lines(vec![tptp::deep(|| tptp::answers::line(&text, 16_384, 16_384))]))
}

/// `looks DIR HEIGHT`: how many places and clauses that search looks at.
fn looks(words: &[String]) -> Result<Vec<u8>, String> {
    let usage = || "looks DIR HEIGHT".to_string();
    let folder = words.get(1).ok_or_else(usage)?;
    let height = words.get(2).and_then(|word| decimal(word)).filter(|height| *height <= HEIGHT).ok_or_else(usage)?;
    let [rules, goal, terms] = ["rules.sx", "goal.sx", "terms.sx"].map(|name| file(folder, name));
    let packet = Files { rules: &rules, goal: &goal, terms: &terms }.packet();
    let packet = packet.map_err(|refusal| answers::refused(refusal, true))?;
    let mut search = Search::new(&packet.candidates, u64::MAX);
    search.goal(&packet.goal, &packet.rules, 0, height).map_err(|_| "no end of looks".to_string())?;
    Ok(lines(vec![search.looked(u64::MAX).to_string()]))
}

/// A decimal number; one too large for its type counts as the largest.
fn decimal(word: &str) -> Option<usize> {
    let digits = !word.is_empty() && word.bytes().all(|byte| byte.is_ascii_digit());
    digits.then(|| word.parse().unwrap_or(usize::MAX))
}

/// The bytes of a file; one that is missing counts as empty.
fn file(folder: &str, name: &str) -> Vec<u8> {
    std::fs::read(std::path::Path::new(folder).join(name)).unwrap_or_default()
}

/// Which of the case files is asked for: a number from 1 to `parts`.
fn part(words: &[String], parts: usize) -> Result<usize, String> {
    let number = words.get(1).and_then(|word| word.parse().ok());
    number.filter(|number| (1..=parts).contains(number)).ok_or(format!("which part, from 1 to {parts}?"))
}

/// Whether the places of refusals 1 to 6 are shown, as request Two asks, and not 0 as document 01 has it.
fn places(words: &[String]) -> bool {
    words.iter().any(|word| word == "--places")
}

fn input() -> Result<Vec<u8>, String> {
    let mut bytes = Vec::new();
    std::io::stdin().read_to_end(&mut bytes).map_err(|why| why.to_string())?;
    Ok(bytes)
}

/// The counts, one on each line; a count of 0 is an error, since the cases then miss an answer.
fn counts(counts: Vec<(String, usize)>) -> Result<Vec<u8>, String> {
    let none: Vec<&str> = counts.iter().filter(|(_, count)| *count == 0).map(|(what, _)| what.as_str()).collect();
    if !none.is_empty() {
        return Err(format!("no case for: {}", none.join(", ")));
    }
    Ok(lines(counts.into_iter().map(|(what, count)| format!("{what} {count}")).collect()))
}

fn lines(lines: Vec<String>) -> Vec<u8> {
    lines.into_iter().flat_map(|line| (line + "\n").into_bytes()).collect()
}
