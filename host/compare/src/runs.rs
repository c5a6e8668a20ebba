//! Tables for the search for a number: numbers are taken in runs where it must pass them. A namespace of a table gets
//! many processes, another last number, and other numbers for those that it sees.

use crate::damage::Kind;
use reference::table::{End, Life, Namespace, Process, Table, LEVELS, MAX_PID, NAMESPACES, PROCESSES};
use scripts::random::Random;
use std::collections::BTreeSet;

/// Numbers start again here.
pub const AGAIN: u16 = 300;

/// Numbers from here on are in nobody's way: those of new processes on other levels, and of processes for which a run
/// is too short.
const ELSEWHERE: u16 = 10_000;
const ASIDE: u16 = 20_000;

/// Last numbers: the lowest, those from which a run reaches 300 or begins there, and some in between.
const LASTS: [u16; 14] = [0, 0, 1, 2, 100, 235, 236, 237, 298, 299, 300, 1000, 5000, 32_000];

/// A last number, and the numbers that are taken.
type Numbers = (u16, Vec<u16>);

/// Draws them for so many processes.
type Draw = fn(usize, &mut Random) -> Numbers;

const DRAWS: [(&str, Draw); 6] = [
    ("a run above the last number", above_last),
    ("a run to 32,767 and one from 300", around),
    ("a last number at 32,767 or past it", last_at_top),
    ("numbers 64 above the last one", at_edges),
    ("numbers past 32,767", past_top),
    ("numbers 64 apart", apart),
];

pub fn kinds() -> Vec<Kind> {
    let of_draw = |(name, draw): (&str, Draw)| Kind::of_search(name, move |t, random| _ = crowd(t, draw, random));
    let mut kinds = Vec::from(DRAWS.map(of_draw));
    kinds.push(Kind::of_search("numbers that do not count", |t, random| {
        let (_, draw) = random.pick(&DRAWS);
        let (n, holders) = crowd(t, draw, random);
        displace(t, n, holders, random);
    }));
    kinds
}

// ---- numbers

/// The length of a run: short, half of 64, nearly 64, or as long as there are processes for it.
fn length(room: usize, random: &mut Random) -> u16 {
    random.pick(&[0, 1, 2, 31, 32, 33, 62, 63, room, room, room, room]).min(room) as u16
}

/// Numbers from one on, now and then without one of them.
fn run(from: u16, length: u16, random: &mut Random) -> Vec<u16> {
    let mut run: Vec<u16> = (0..length).map(|k| from.wrapping_add(k)).collect();
    if !run.is_empty() && random.one_in(3) {
        run.remove(random.below(run.len()));
    }
    run
}

fn above_last(room: usize, random: &mut Random) -> Numbers {
    let last = random.pick(&LASTS);
    (last, run(last + 1, length(room, random), random))
}

/// The first run ends at the top or near it.
fn around(room: usize, random: &mut Random) -> Numbers {
    let first = length(room, random);
    let last = MAX_PID - random.pick(&[0, 0, 0, 0, 1, 2, 31, 32, 33]) - first;
    let second = length(room - first as usize, random);
    (last, [run(last + 1, first, random), run(AGAIN, second, random)].concat())
}

fn last_at_top(room: usize, random: &mut Random) -> Numbers {
    let last = random.pick(&[32_766, 32_766, 32_767, 32_767, 32_768, 32_769, 40_000, 65_471, 65_472, 65_534, 65_535]);
    let top = run(MAX_PID, random.below(2) as u16, random);
    (last, [top, run(AGAIN, length(room, random), random)].concat())
}

/// The last number itself, or one about 64 above it, and a run beside them.
fn at_edges(room: usize, random: &mut Random) -> Numbers {
    let last = random.pick(&LASTS);
    let mut taken = [0, 63, 64, 65, 66].map(|above| last + above).to_vec();
    taken.retain(|_| random.one_in(2));
    let run = run(last + random.below(3) as u16, length(room, random), random);
    taken.extend(run.into_iter().filter(|pid| !taken.contains(pid)).collect::<Vec<_>>());
    (last, taken)
}

/// A run over the top, and another from 300, from where the low 15 bits are 300's, or to the last number there is.
fn past_top(room: usize, random: &mut Random) -> Numbers {
    let last = MAX_PID - random.below(66) as u16;
    let first = length(room, random);
    let left = room as u16 - first;
    let from = random.pick(&[AGAIN, MAX_PID + 1 + AGAIN, 0_u16.wrapping_sub(left)]);
    (last, [run(last + 1, first, random), run(from, left, random)].concat())
}

/// A run in which up to three numbers are not taken, but others in their stead that a mark could be mistaken for.
fn apart(room: usize, random: &mut Random) -> Numbers {
    let (last, from) = random.pick(&[(0, 1), (100, 101), (300, 301), (5000, 5001), (MAX_PID, AGAIN)]);
    let mut taken: Vec<u16> = (from..from + room as u16).collect();
    for _ in 0..random.between(1, 3).min(room as i32) {
        let pid = random.pick(&taken);
        let away = random.pick(&[64, 128, 256, 4096, 16_384, 32_768]);
        let other = if random.one_in(2) { pid.wrapping_add(away) } else { pid.wrapping_sub(away) };
        taken.iter_mut().filter(|taken| **taken == pid).for_each(|taken| *taken = other);
    }
    (last, taken)
}

// ---- processes

/// A living namespace with many processes and drawn numbers. Gives it, and those that it sees.
fn crowd(t: &mut Table, draw: Draw, random: &mut Random) -> (u8, Vec<u8>) {
    if random.one_in(2) {
        *t = chain(random);
    }
    let (n, init) = a_living(t, random);
    let any = 1 + random.below(PROCESSES);
    fill(t, n, init, &[64, 64, 64, 63, 62, any], random);
    let all_in = n != 0 && random.one_in(2);
    if all_in {
        // Else a deep namespace sees few: those above have their inits.
        t.processes.iter_mut().filter(|p| p.is_taken()).for_each(|p| p.own = n);
    }
    // In a sound table the init keeps its number.
    let keeper = (!all_in && !random.one_in(4)).then_some(init);
    let numbers = draw(t.seen_from(n).count(), random);
    (n, number(t, n, keeper, numbers, random))
}

/// Makes a sound table one in which a living namespace has many processes, and it and most of those above it have drawn
/// numbers. It stays sound, and mostly there is room for a birth.
pub fn crowd_path(t: &mut Table, random: &mut Random) {
    let (n, init) = a_living(t, random);
    fill(t, n, init, &[60, 61, 62, 63, 63, 63, 63, 64], random);
    let mut at = Some(n);
    while let Some((n, Life::Alive(init))) = at.and_then(|n| Some((n, t.namespace(n)?.life))) {
        if !random.one_in(4) {
            let (_, draw) = random.pick(&DRAWS);
            let (last, taken) = draw(t.seen_from(n).count().saturating_sub(1), random);
            let taken = BTreeSet::from_iter(taken.into_iter().filter(|pid| (1..=MAX_PID).contains(pid)));
            number(t, n, Some(init), (last.min(MAX_PID), taken.into_iter().collect()), random);
        }
        at = Some(t.namespaces[n as usize].parent);
    }
}

/// A namespace on each level down to one, often the deepest, at any slots, and nobody but their inits.
pub fn chain(random: &mut Random) -> Table {
    let depth = random.below(LEVELS + 8).min(LEVELS - 1);
    let mut t = Table::fresh();
    let (mut namespaces, mut inits) = (Vec::from_iter(1..NAMESPACES as u8), Vec::from_iter(1..PROCESSES as u8));
    random.shuffle(&mut namespaces);
    random.shuffle(&mut inits);
    let (mut above, mut parent) = (0, 0);
    for (level, (&n, &init)) in (1..=depth).zip(namespaces.iter().zip(&inits)) {
        let mut pids = [0; LEVELS];
        pids[..level].fill(ELSEWHERE + u16::from(init));
        pids[level] = 1;
        t.namespaces[n as usize] = Namespace { parent: above, level: level as u8, last: 1, life: Life::Alive(init) };
        t.processes[init as usize] = Process { own: n, children: n, parent, pids, ..Process::EMPTY };
        (above, parent) = (n, init);
    }
    t
}

/// A living namespace, mostly the deepest, and its init.
fn a_living(t: &Table, random: &mut Random) -> (u8, u8) {
    let init_of = |(n, s): (u8, &Namespace)| if let Life::Alive(init) = s.life { Some((n, init)) } else { None };
    let living: Vec<(u8, u8)> = t.each_namespace().filter_map(init_of).collect();
    match random.below(5) {
        0 => living[0],
        1 => random.pick(&living),
        _ => living.into_iter().max_by_key(|(n, _)| t.namespaces[*n as usize].level).expect("the root lives"),
    }
}

/// Children of an init in free slots, until the table has one of some numbers of processes. Some of them have ended.
fn fill(t: &mut Table, n: u8, init: u8, numbers: &[usize], random: &mut Random) {
    let wanted = random.pick(numbers);
    let level = t.namespaces[n as usize].level as usize;
    let mut free: Vec<usize> = (0..PROCESSES).filter(|&i| !t.processes[i].is_taken()).collect();
    let births = (wanted + free.len()).saturating_sub(PROCESSES);
    random.shuffle(&mut free);
    for &i in &free[..births] {
        let mut pids = [0; LEVELS];
        pids[..=level].fill(ELSEWHERE + i as u16);
        t.processes[i] = Process { own: n, children: n, parent: init, pids, ..Process::EMPTY };
        if random.one_in(4) {
            t.processes[i].end(End::Exited(0));
        }
    }
}

/// Those that a namespace sees get numbers there, in any order, but for one that keeps number 1. Gives their slots.
fn number(t: &mut Table, n: u8, keeper: Option<u8>, (last, mut taken): Numbers, random: &mut Random) -> Vec<u8> {
    let level = t.namespaces[n as usize].level as usize;
    let mut holders: Vec<u8> = t.seen_from(n).map(|(i, _)| i).collect();
    holders.retain(|&i| Some(i) != keeper);
    taken.retain(|&pid| pid != 1 || keeper.is_none());
    random.shuffle(&mut holders);
    for (&i, pid) in holders.iter().zip(taken.into_iter().chain(ASIDE..)) {
        t.processes[i as usize].pids[level] = pid;
    }
    t.namespaces[n as usize].last = last;
    holders
}

/// Some of those that a namespace sees go elsewhere, end, or leave an empty slot with their numbers above the root's.
fn displace(t: &mut Table, n: u8, mut holders: Vec<u8>, random: &mut Random) {
    // The slot past the last is no namespace, and not below any.
    let outside: Vec<u8> = (0..=NAMESPACES as u8).filter(|&m| !t.below(m, n)).collect();
    let few = random.between(1, 4) as usize;
    let number = random.pick(&[few, few, few, holders.len()]);
    // Their order was that of the numbers.
    random.shuffle(&mut holders);
    for i in holders.into_iter().take(number) {
        let p = &mut t.processes[i as usize];
        match random.below(4) {
            0 | 1 => p.own = random.pick(&outside),
            2 => p.pids[0] = 0,
            _ => p.end(End::Signaled(9)),
        }
    }
}

#[cfg(test)]
mod tests {
    use super::*;
    use reference::script::run;
    use reference::sound::is_sound;
    use scripts::generate::{script, KINDS};

    fn bases() -> impl Iterator<Item = (u64, Table)> {
        (0..200).map(|seed| {
            let mut t = Table::fresh();
            run(&mut t, &script(&KINDS[seed as usize % KINDS.len()], seed, 150));
            (seed, t)
        })
    }

    /// Births are granted in a sound table alone.
    #[test]
    fn crowded_paths_are_sound() {
        for (seed, mut t) in bases() {
            let mut random = Random::from_seed(seed);
            if random.one_in(2) {
                t = chain(&mut random);
            }
            crowd_path(&mut t, &mut random);
            assert!(is_sound(&t), "seed {seed}");
            assert!(t.each_process().count() >= 60, "seed {seed}");
        }
    }
}
