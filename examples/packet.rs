//! packet DIR: judges the packet in DIR. packet DIR HEIGHT [SIZE]: searches its first strip within that height, and of at most SIZE bytes. Prints the line that ./desk prints, and a
//! strip that is found after it.

use std::process::ExitCode;

/// The two calls of the library, as include/desk.h has them, behind functions that are safe: a slice gives its own pointer and count.
mod desk {
    pub const BYTES: usize = 16_384;
    pub const ROOM: usize = 8_192;

    #[link(name = "desk", kind = "static")]
    extern "C" {
        fn desk_judge(
            rules: *const u8, rules_count: usize, goal: *const u8, goal_count: usize, terms: *const u8, terms_count: usize,
            strip: *const u8, strip_count: usize, room: *mut u32, room_count: usize, first: &mut u64, second: &mut u64,
        ) -> u32;
        fn desk_propose(
            rules: *const u8, rules_count: usize, goal: *const u8, goal_count: usize, terms: *const u8, terms_count: usize, height: usize,
            strip: *mut u8, strip_count: usize, room: *mut u32, room_count: usize, first: &mut u64, second: &mut u64, third: &mut u64,
        ) -> u32;
    }

    pub struct Refused {
        pub number: u32,
        pub file: u64,
        pub place: u64,
    }

    /// Rules, goal and terms.
    pub type Books<'a> = [&'a [u8]; 3];

    /// The strip's height and number of nodes.
    pub fn judge([rules, goal, terms]: Books, strip: &[u8], room: &mut [u32]) -> Result<(u64, u64), Refused> {
        let (mut first, mut second) = (0, 0);
        // Each slice is valid for its count, and what is lent for writing is borrowed alone.
        let number = unsafe {
            desk_judge(
                rules.as_ptr(), rules.len(), goal.as_ptr(), goal.len(), terms.as_ptr(), terms.len(),
                strip.as_ptr(), strip.len(), room.as_mut_ptr(), room.len(), &mut first, &mut second,
            )
        };
        if number == 0 { Ok((first, second)) } else { Err(Refused { number, file: first, place: second }) }
    }

    /// The height, number of nodes and length of the strip that now fills the front of the buffer.
    pub fn propose([rules, goal, terms]: Books, height: usize, strip: &mut [u8], room: &mut [u32]) -> Result<(u64, u64, u64), Refused> {
        let (mut first, mut second, mut third) = (0, 0, 0);
        // As above.
        let number = unsafe {
            desk_propose(
                rules.as_ptr(), rules.len(), goal.as_ptr(), goal.len(), terms.as_ptr(), terms.len(), height,
                strip.as_mut_ptr(), strip.len(), room.as_mut_ptr(), room.len(), &mut first, &mut second, &mut third,
            )
        };
        if number == 0 { Ok((first, second, third)) } else { Err(Refused { number, file: first, place: second }) }
    }
}

/// A file that is missing counts as empty.
fn load(folder: &str, name: &str) -> Vec<u8> {
    std::fs::read(std::path::Path::new(folder).join(name)).unwrap_or_default()
}

fn refused(why: &desk::Refused) -> ExitCode {
    println!("refused {} {} {}", why.number, why.file, why.place);
    ExitCode::from(1)
}

fn usage() -> ExitCode {
    eprintln!("usage: packet DIR [HEIGHT [SIZE]]");
    ExitCode::from(2)
}

fn main() -> ExitCode {
    let words: Vec<String> = std::env::args().skip(1).collect();
    let Some(folder) = words.first() else { return usage() };
    let [rules, goal, terms, strip] = ["rules.sx", "goal.sx", "terms.sx", "strip.sx"].map(|name| load(folder, name));
    let books = [&rules[..], &goal[..], &terms[..]];
    let mut room = vec![0; desk::ROOM];
    let Some(height) = words.get(1) else {
        return match desk::judge(books, &strip, &mut room) {
            Ok((height, nodes)) => {
                println!("accepted {height} {nodes}");
                ExitCode::SUCCESS
            }
            Err(why) => refused(&why),
        };
    };
    let (Ok(height), Ok(size)) = (height.parse(), words.get(2).map_or(Ok(desk::BYTES), |size| size.parse())) else { return usage() };
    let mut found = vec![0; desk::BYTES.min(size)];
    match desk::propose(books, height, &mut found, &mut room) {
        Ok((height, nodes, length)) => {
            println!("found {height} {nodes} {length}\n{}", String::from_utf8_lossy(&found[..length as usize]));
            ExitCode::SUCCESS
        }
        Err(why) => refused(&why),
    }
}
