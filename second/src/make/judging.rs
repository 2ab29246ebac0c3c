//! Judge cases: packets with a strip that is a proof, the same with one thing changed, fronts, tails and inner nodes
//! of accepted strips, and packets damaged in their files.

use crate::batch::put;
use crate::chance::Chance;
use crate::make::packets::{base, Files};
use crate::make::{changes, damage, known, proofs};
use crate::spell;
use crate::strip::Node;
use crate::verdict::Packet;

/// The number of case files.
pub const PARTS: usize = 2;

/// One of the case files, from 1 on: for each case the four files.
pub fn cases(part: usize) -> Vec<u8> {
    let mut out = Vec::new();
    if part == 1 {
        known::packets().iter().for_each(|files| case(&mut out, files));
        fronts_and_tails(&mut out, &base());
        let mut chance = Chance::new(61);
        for _ in 0..4 {
            fronts_and_tails(&mut out, &short(&mut chance));
        }
        by_chance(&mut out, &mut chance, 100);
    } else {
        by_chance(&mut out, &mut Chance::new(62), 500);
    }
    out
}

fn case(out: &mut Vec<u8>, files: &Files) {
    files.iter().for_each(|file| put(out, file));
}

fn with_strip(out: &mut Vec<u8>, files: &Files, strip: &[u8]) {
    files[..3].iter().for_each(|file| put(out, file));
    put(out, strip);
}

pub fn spelled(packet: &Packet, strip: &Node) -> Files {
    [spell::rules(&packet.rules), spell::goal_file(&packet.goal), spell::terms(&packet.candidates), spell::strip(strip)]
}

/// A short packet by chance, but not of the shortest.
fn short(chance: &mut Chance) -> Files {
    loop {
        let (packet, strip) = proofs::packet(chance);
        let files = spelled(&packet, &strip);
        let bytes: usize = files.iter().map(Vec::len).sum();
        if strip.nodes() > 3 && bytes < 300 {
            return files;
        }
    }
}

/// Every proper front and every proper tail of an accepted strip.
fn fronts_and_tails(out: &mut Vec<u8>, files: &Files) {
    let strip = &files[3];
    for at in 0..strip.len() {
        with_strip(out, files, &strip[..at]);
        with_strip(out, files, &strip[at + 1..]);
    }
}

fn by_chance(out: &mut Vec<u8>, chance: &mut Chance, packets: usize) {
    let mut made = 0;
    while made < packets {
        let (packet, strip) = proofs::packet(chance);
        let files = spelled(&packet, &strip);
        let bytes: usize = files.iter().map(Vec::len).sum();
        if bytes > 600 || strip.nodes() < 2 || (strip.nodes() < 4 && !chance.once_in(4)) {
            continue;
        }
        made += 1;
        case(out, &files);
        for _ in 0..chance.between(1, 2) {
            with_strip(out, &files, &spell::strip(&changes::strip(chance, &strip)));
        }
        if chance.once_in(2) {
            let mut damaged = files.clone();
            let which = chance.below(4);
            damaged[which] = damage::file(chance, &files[which]);
            case(out, &damaged);
        }
        if chance.once_in(5) {
            for inner in &strip.all()[1..] {
                with_strip(out, &files, &spell::strip(inner));
            }
        }
    }
}
