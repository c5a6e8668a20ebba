//! One call at a time, by the library and by the reference. A round is a walk from the fresh table, as a kind of script
//! goes, with odd callers, requests and arguments between; and from its tables short ways off, on damaged copies, and
//! with births past long runs of numbers.

use crate::damage::{self, kinds, BROAD};
use crate::difference::again;
use crate::fields::{value_at, OF_NAMESPACES};
use crate::library;
use crate::runs::{chain, crowd_path};
use crate::searches::{Searches, OF_BIRTHS};
use crate::tally::Tally;
use crate::walks::{changes, shown, shrunk, Pair, Step};
use reference::calls::Call;
use reference::mirror::{bytes, table, Bytes};
use reference::table::{Life, Process, State, Table, LEVELS, MAX_PID, PROCESSES};
use reference::turns::{Reply, Request};
use scripts::generate::{Kind, KINDS};
use scripts::random::Random;

/// As many calls, and some to the end of the last round, where nothing else is said.
pub const CALLS: usize = 245_500;

/// Numbers of requests that no call has, though their low bits may be those of one.
const NO_CALLS: [u32; 9] = [0, 13, 14, 255, 256, 65_536, 1 << 31, u32::MAX - 12, u32::MAX];

/// Arguments at the bounds of signals, of numbers, and of their types.
const BOUNDS: [i32; 20] = [
    i32::MIN,
    i32::MIN + 1,
    -65_536,
    -256,
    -2,
    -1,
    0,
    1,
    9,
    19,
    31,
    32,
    255,
    256,
    256 + 9,
    32_767,
    32_768,
    65_535,
    i32::MAX - 1,
    i32::MAX,
];

/// Plays rounds until there were so many calls, and prints how often each was granted and refused; or shows the first
/// difference.
pub fn hold(seed: u64, calls: usize) -> Result<(), String> {
    if library::fresh() != bytes(&Table::fresh()) {
        return Err(format!("calls, seed {seed}: the fresh tables differ"));
    }
    let kinds = kinds();
    let mut seen = Seen { calls: Tally::default(), births: Searches::none(&OF_BIRTHS) };
    let mut at = seed;
    while seen.calls.calls() < calls {
        Round::from_seed(at, &kinds).play(&mut seen).map_err(|walk| told(at, &walk))?;
        at = at.wrapping_add(1);
    }
    println!("{}\n{}", seen.calls, seen.births);
    if calls >= CALLS {
        let again = again(&format!("calls --seed {seed}"));
        seen.is_whole().map_err(|missing| format!("calls, seed {seed}: {missing}\n{again}"))?;
    }
    println!("compare: {} calls in {} rounds, no difference", seen.calls.calls(), at.wrapping_sub(seed));
    Ok(())
}

/// The calls of a run, and the births among them that must pass long runs of numbers.
struct Seen {
    calls: Tally,
    births: Searches,
}

impl Seen {
    fn is_whole(&self) -> Result<(), String> {
        self.calls.is_whole().and(self.births.is_whole())
    }
}

/// A walk on which there is a difference.
fn told(seed: u64, walk: &[Step]) -> String {
    let difference = shown(&shrunk(walk));
    let again = again(&format!("calls --seed {seed} --calls 1"));
    let kind = kind_of(seed).name;
    format!("calls of kind '{kind}', seed {seed}: the library and the reference differ.\n{difference}{again}")
}

fn kind_of(seed: u64) -> &'static Kind {
    &KINDS[(seed % KINDS.len() as u64) as usize]
}

struct Round<'a> {
    kind: &'static Kind,
    damage: &'a [damage::Kind],
    random: Random,
    /// for the births past long runs, so that walks do not depend on them
    for_births: Random,
    pair: Pair,
    walk: Vec<Step>,
}

impl Round<'_> {
    fn from_seed(seed: u64, damage: &[damage::Kind]) -> Round<'_> {
        let [random, for_births] = [seed, !seed].map(Random::from_seed);
        Round { kind: kind_of(seed), damage, random, for_births, pair: Pair::fresh(), walk: Vec::new() }
    }

    /// Gives the walk to a difference where there is one.
    fn play(mut self, seen: &mut Seen) -> Result<(), Vec<Step>> {
        for place in 0..self.random.pick(&[60, 150, 300, 700]) {
            // What calls leave is a table; of other bytes the next call tells.
            let t = table(self.pair.bytes()).unwrap_or(Table::fresh());
            if self.random.one_in(6) {
                self.go_off(&t, seen)?;
            }
            if self.for_births.one_in(60) {
                self.go_past_runs(&t, seen)?;
            }
            if self.random.one_in(100) {
                self.wind(t.clone());
            }
            let step = if self.kind.in_chain(place) {
                Step::Ask(place as u32, Request::of(Call::CloneNew))
            } else {
                self.ask(&t)
            };
            self.walk.push(step);
            let before = root_last(&self.pair);
            let reply = self.pair.go(step).map_err(|_| self.walk.clone())?;
            seen.calls.count(step, reply, false);
            seen.calls.count_start_again(root_last(&self.pair) < before);
        }
        Ok(())
    }

    /// A few calls on a damaged copy of the table. They are drawn for the table as it is.
    fn go_off(&mut self, t: &Table, seen: &mut Seen) -> Result<(), Vec<Step>> {
        let among = if self.random.one_in(3) { BROAD } else { self.damage.len() };
        let damaged = self.damage[self.random.below(among)].of(t, &mut self.random);
        let way = changes(self.pair.bytes(), &damaged);
        if way.is_empty() {
            return Ok(());
        }
        let asks: Vec<Step> = (0..self.random.between(1, 4)).map(|_| self.ask(t)).collect();
        let see = |step, reply, _: &Bytes, _: &Bytes| seen.calls.count(step, reply, true);
        go_way(self.pair.clone(), &way, &asks, see).map_err(|way| [self.walk.clone(), way].concat())
    }

    /// A few births on a copy of the table, or on a chain of namespaces from the fresh one, with many processes and
    /// long runs of numbers in their way.
    fn go_past_runs(&mut self, t: &Table, seen: &mut Seen) -> Result<(), Vec<Step>> {
        let random = &mut self.for_births;
        let is_chain = random.one_in(2);
        let mut crowded = if is_chain { chain(random) } else { t.clone() };
        crowd_path(&mut crowded, random);
        let (walk, pair) = if is_chain { (&[][..], Pair::fresh()) } else { (&self.walk[..], self.pair.clone()) };
        let way = changes(pair.bytes(), &bytes(&crowded));
        let births = random.between(1, 3);
        let asks: Vec<Step> = (0..births).map(|_| a_birth(&crowded, random)).collect();
        let see = |step, reply, before: &Bytes, after: &Bytes| {
            seen.calls.count(step, reply, false);
            if let (Some(before), Some(after)) = (table(before), table(after)) {
                seen.births.count_birth(&before, &after);
            }
        };
        go_way(pair, &way, &asks, see).map_err(|way| [walk, &way].concat())
    }

    /// The numbers of some namespaces are about to start again. A sound table stays sound.
    fn wind(&mut self, mut t: Table) {
        for n in t.namespaces.iter_mut().filter(|n| n.life != Life::Unborn) {
            if self.random.one_in(2) {
                n.last = MAX_PID - self.random.below(16) as u16;
            }
        }
        let changes = changes(self.pair.bytes(), &bytes(&t));
        self.pair.put(&changes);
        self.walk.extend(changes);
    }

    /// A call as the kind has them, with or without something odd about it.
    fn ask(&mut self, t: &Table) -> Step {
        let random = &mut self.random;
        let (slot, call) = self.kind.call(t, random);
        let (mut caller, mut request) = (slot.into(), Request::of(call));
        let junk = random.one_in(2);
        for (k, argument) in [&mut request.a, &mut request.b, &mut request.c].into_iter().enumerate() {
            let is_odd = if k < arguments(call) { random.one_in(10) } else { junk };
            if is_odd {
                *argument = odd_argument(t, random);
            }
        }
        if random.one_in(16) {
            caller = odd_caller(caller, random);
        }
        if random.one_in(24) {
            request.call = odd_number(request.call, random);
        }
        Step::Ask(caller, request)
    }
}

/// Changes both tables and makes calls, each of which is seen with the table before and after it. Gives the way to a
/// difference where there is one.
fn go_way(
    mut pair: Pair,
    way: &[Step],
    asks: &[Step],
    mut see: impl FnMut(Step, Option<Reply>, &Bytes, &Bytes),
) -> Result<(), Vec<Step>> {
    pair.put(way);
    for (k, &step) in asks.iter().enumerate() {
        let before = *pair.bytes();
        let reply = pair.go(step).map_err(|_| [way, &asks[..=k]].concat())?;
        see(step, reply, &before, pair.bytes());
    }
    Ok(())
}

/// A birth by a running process, every other time by one whose children are born on the deepest level.
fn a_birth(t: &Table, random: &mut Random) -> Step {
    let running: Vec<(u8, &Process)> = t.each_process().filter(|(_, p)| p.state == State::Running).collect();
    let level = |(_, p): &&(u8, &Process)| t.namespaces[p.children as usize].level;
    let deepest = running.iter().max_by_key(level).copied();
    let caller = deepest.filter(|_| random.one_in(2)).or((!running.is_empty()).then(|| random.pick(&running)));
    let call = random.pick(&[Call::Clone, Call::Clone, Call::Clone, Call::CloneNew]);
    Step::Ask(caller.map_or(0, |(i, _)| i.into()), Request::of(call))
}

/// The last number of the root.
fn root_last(pair: &Pair) -> u32 {
    value_at(pair.bytes(), OF_NAMESPACES.record(0).end - 1)
}

/// How many arguments a call takes.
fn arguments(call: Call) -> usize {
    match call {
        Call::Kill(..) => 2,
        Call::Setns(_) | Call::Exit(_) | Call::Handle(..) => 1,
        _ => 0,
    }
}

/// A bound, or a number that some process has on some level: as it is, negative, or with higher bits.
fn odd_argument(t: &Table, random: &mut Random) -> i32 {
    let process = &t.processes[random.below(PROCESSES)];
    let number = i32::from(process.pids[random.below(LEVELS)].max(process.pids[0]));
    match random.below(6) {
        0 => any_bits(random) as i32,
        1 => number,
        2 => -number,
        3 => number + (1 << random.between(8, 30)),
        4 => number.wrapping_add(i32::MIN),
        _ => random.pick(&BOUNDS),
    }
}

/// A slot beyond the last, up to where its low bits are the caller's; or any.
fn odd_caller(caller: u32, random: &mut Random) -> u32 {
    match random.below(6) {
        0 => random.pick(&[64, 127, 128, 254, 255, 256, u32::MAX]),
        1 => caller + 256 * random.between(1, 255) as u32,
        2 => caller + (1 << random.between(6, 31)),
        3 => random.between(64, 255) as u32,
        4 => random.below(PROCESSES) as u32,
        _ => any_bits(random),
    }
}

/// A number that no call has, or that of another call.
fn odd_number(call: u32, random: &mut Random) -> u32 {
    match random.below(5) {
        0 => random.pick(&NO_CALLS),
        1 => call + 256,
        2 => call + (1 << random.between(4, 31)),
        3 => any_bits(random),
        _ => random.between(1, 12) as u32,
    }
}

fn any_bits(random: &mut Random) -> u32 {
    random.below(1 << 32) as u32
}
