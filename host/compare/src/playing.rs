//! Scripts: the recorder, the proved library and the reference must give the same answers to each.

use crate::difference::{again, by_reference, Difference};
use crate::forms::Seen;
use crate::recorder::{pieces, play, Answers};
use crate::Options;
use scripts::crowds::round_among_many;
use scripts::generate::{arbitrary, bytes, script, KINDS};
use scripts::rounds::round;
use std::process::Command;

/// What stands in a buffer before and, where nothing may be written, after a call.
pub const GUARD: u8 = 0xa5;
const GUARD_BYTES: usize = 64;

const SHORT_AND_LONG: [&[u8]; 7] =
    [b"", b"\n", b"\n\n", b"0 getpid", b"0 getpid\n\n", &[b'0'; 100_000], &[b'\n'; 5000]];

/// Scripts of a kind. Each is made from its seed and its place among them, from 1 on.
struct Kind {
    name: &'static str,
    number: u64,
    make: Box<dyn Fn(u64, u64) -> Vec<u8>>,
}

/// The kinds in the order of play.
fn kinds() -> Vec<Kind> {
    let mut kinds = Vec::new();
    let mut add = |name, number, make| kinds.push(Kind { name, number, make });
    for kind in &KINDS {
        let lines = |place: u64| if place.is_multiple_of(4) { 3000 } else { 400 };
        add(kind.name, 20, Box::new(move |seed, place| script(kind, seed, lines(place))));
    }
    add("good lines with bytes changed", 40, Box::new(|seed, _| bytes(seed, 600)));
    add("arbitrary bytes", 40, Box::new(|seed, place| arbitrary(place.is_multiple_of(2), seed, 4000)));
    add("short and long", 7, Box::new(|_, place| SHORT_AND_LONG[place as usize - 1].to_vec()));
    add("numbers going round", 1, Box::new(|seed, _| round(seed)));
    add("numbers going round among many", 1, Box::new(|seed, _| round_among_many(seed)));
    kinds
}

pub fn names() -> Vec<&'static str> {
    kinds().iter().map(|kind| kind.name).collect()
}

/// Plays every script, or those of one kind, to all three, and prints how many lines of each kind; or shows the first
/// difference.
pub fn hold(recorder: &str, options: Options) -> Result<(), String> {
    let mut all = 0;
    let mut seen = Seen::default();
    println!("{:40} {:>7} {:>12} {:>7}", "scripts", "number", "lines", "pieces");
    for kind in kinds().iter().filter(|kind| options.kind.is_none_or(|name| kind.name == name)) {
        all += hold_kind(recorder, options.seed, kind, &mut seen)?;
    }
    if options.kind.is_none() {
        let again = again(&format!("scripts {recorder} --seed {}", options.seed));
        seen.report().map_err(|missing| format!("{missing}\n{again}"))?;
    }
    println!("compare: {all} lines, no difference");
    Ok(())
}

/// Plays the scripts of a kind. The seed of one is the base plus its place. Gives the number of lines.
fn hold_kind(recorder: &str, base: u64, kind: &Kind, seen: &mut Seen) -> Result<usize, String> {
    let Kind { name, number, make } = kind;
    let (mut lines, mut fed) = (0, 0);
    for place in 1..=*number {
        let seed = base.wrapping_add(place);
        let script = make(seed, place);
        let answers = hold_script(recorder, seed, &script).map_err(|difference| {
            let again = again(&format!("scripts {recorder} --seed {base} --kind '{name}'"));
            format!("kind '{name}', script {place}, seed {seed}: {}\n{again}", difference.trim_end())
        })?;
        seen.count(&script, &answers);
        lines += script.split_inclusive(|&b| b == b'\n').count();
        fed += pieces(&script, seed).len();
    }
    println!("{name:40} {number:>7} {lines:>12} {fed:>7}");
    Ok(lines)
}

/// Plays one script to all three. Gives its answers.
fn hold_script(recorder: &str, seed: u64, script: &[u8]) -> Answers {
    let by_recorder = |script: &[u8]| play(&mut Command::new(recorder), &pieces(script, seed));
    let answers = by_reference(script);
    if let Some(found) = Difference::find(script, &answers, by_recorder) {
        return Err(found.shown("the recorder") + &feeding(&pieces(&found.script, seed)));
    }
    if let Some(found) = Difference::find(script, &answers, by_library) {
        return Err(found.shown("the library"));
    }
    hold_short_buffers(script)?;
    Ok(answers)
}

/// What the library writes into a buffer of just enough bytes. It must not write past its answers.
fn by_library(script: &[u8]) -> Answers {
    let room = lampfunnel::room_for(script);
    let mut memory = vec![GUARD; room + GUARD_BYTES];
    let used = lampfunnel::run_into(script, &mut memory[..room]).map_err(|e| e.to_string())?;
    if used > room || memory[used..].iter().any(|&b| b != GUARD) {
        return Err("it writes past its answers".into());
    }
    memory.truncate(used);
    Ok(memory)
}

/// Buffers that may be too short are refused and left alone.
fn hold_short_buffers(script: &[u8]) -> Result<(), String> {
    let room = lampfunnel::room_for(script);
    for short in [0, room / 2, room.saturating_sub(1)].into_iter().filter(|&short| short < room) {
        let mut memory = vec![GUARD; room];
        if lampfunnel::run_into(script, &mut memory[..short]).is_ok() {
            return Err(format!("the library takes a buffer of {short} bytes where {room} may be needed"));
        }
        if memory.iter().any(|&b| b != GUARD) {
            return Err("the library writes to a buffer that it refuses".into());
        }
    }
    Ok(())
}

/// Says how a script was fed.
fn feeding(pieces: &[&[u8]]) -> String {
    let lengths: Vec<String> = pieces.iter().map(|piece| piece.len().to_string()).collect();
    match lengths.len() {
        0 | 1 => String::new(),
        2..=40 => format!("fed in pieces of {} bytes\n", lengths.join(", ")),
        number => format!("fed in {number} pieces\n"),
    }
}
