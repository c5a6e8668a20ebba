//! The benchmark's scripts: their generator and their seeds are what is kept, and `facts` tells, from the text alone,
//! what a script made of them has.

use crate::random::Random;
use reference::calls::Call;
use reference::quick::is_sound;
use reference::script::parse;
use reference::table::{Life, State, Table, DEEPEST, NAMESPACES, PROCESSES};

pub const LINES: usize = 100_000;
pub const LEAST_PROCESSES: usize = 60;
pub const LEAST_GRANTED: usize = 1000;

/// A script of the benchmark.
pub struct Kept {
    pub name: &'static str,
    seed: u64,
    /// no namespace lies deeper, and there are never more of them
    deepest: u8,
    namespaces: usize,
    /// from the first line with a full table on a living namespace lies on this level
    chain: u8,
}

/// The first keeps to the limits that the table had before W-206: a recorder of that time gives the same answers.
pub const SCRIPTS: [Kept; 2] = [
    Kept { name: "levels 0 to 7", seed: 211, deepest: 7, namespaces: 32, chain: 0 },
    Kept { name: "a chain to level 32", seed: 206, deepest: DEEPEST, namespaces: NAMESPACES, chain: DEEPEST },
];

/// Fewer than so many running processes would make a table in which most calls are refused.
const LEAST_RUNNING: usize = 24;

impl Kept {
    /// The script: a first part that fills the table, then calls of every kind, never below 60 processes.
    pub fn script(&self) -> Vec<u8> {
        let mut random = Random::from_seed(self.seed);
        let mut table = Table::fresh();
        let mut lines = Vec::new();
        while table.each_process().count() < PROCESSES {
            let line = self.filling_line(&table, &mut random);
            play(&mut table, &line);
            lines.push(line);
        }
        while lines.len() < LINES {
            let line = any_line(&table, &mut random);
            let oversteps = self.oversteps(&table, &line);
            let mut next = table.clone();
            let granted = !oversteps && play(&mut next, &line);
            if self.is_busy(&next) && (granted || random.one_in(3)) && !oversteps {
                table = next;
                lines.push(line);
            }
        }
        (lines.join("\n") + "\n").into_bytes()
    }

    /// The chain, and then a tree some levels deep.
    fn filling_line(&self, t: &Table, random: &mut Random) -> String {
        let count = t.each_process().count();
        if count <= self.chain.into() {
            return format!("{} clone new", count - 1);
        }
        let callers = count.min(24).max(self.chain.into());
        let caller = if count < 4 { 0 } else { random.below(callers) };
        let new = t.each_namespace().count() < 14 && random.one_in(3);
        format!("{caller} clone{}", if new { " new" } else { "" })
    }

    /// A namespace more at a limit of the script's, where the table has room for it.
    fn oversteps(&self, t: &Table, line: &str) -> bool {
        let Some((caller, Call::CloneNew | Call::Unshare)) = parse(line.as_bytes()) else { return false };
        let level = t.namespaces[t.processes[caller as usize].own as usize].level;
        let full = t.each_namespace().count() == self.namespaces;
        level == self.deepest && level < DEEPEST || full && self.namespaces < NAMESPACES
    }

    fn is_busy(&self, t: &Table) -> bool {
        let running = t.each_process().filter(|(_, p)| p.state == State::Running).count();
        t.each_process().count() >= LEAST_PROCESSES && running >= LEAST_RUNNING && deepest_living(t) >= self.chain
    }
}

/// Runs a line; whether its call is granted.
fn play(table: &mut Table, line: &str) -> bool {
    parse(line.as_bytes()).is_some_and(|(slot, call)| table.step_after(is_sound, slot, call).is_ok())
}

/// The deepest level with a living namespace.
fn deepest_living(t: &Table) -> u8 {
    t.each_namespace().filter(|(_, s)| matches!(s.life, Life::Alive(_))).map(|(_, s)| s.level).max().unwrap_or(0)
}

fn any_line(t: &Table, random: &mut Random) -> String {
    let running: Vec<u8> = t.each_process().filter(|(_, p)| p.state == State::Running).map(|(i, _)| i).collect();
    let caller = random.pick(&running);
    let draw = random.below(100);
    // In a full table most births make room first.
    let reaps = draw < 21 && t.each_process().count() == PROCESSES && !random.one_in(8);
    match draw {
        _ if reaps => format!("{} wait", reaper(t, caller, random)),
        0..=13 => format!("{caller} clone"),
        14..=20 => format!("{caller} clone new"),
        21..=26 => format!("{caller} unshare"),
        27..=34 => format!("{caller} setns {}", seen(t, caller, random)),
        35..=39 => format!("{caller} kill {} {}", seen(t, caller, random), random.pick(&[1, 2, 9, 15])),
        40..=49 => format!("{caller} kill {} {}", seen(t, caller, random), random.below(33)),
        50 => format!("{caller} kill -1 {}", random.pick(&[0, 10, 17, 18])),
        51..=56 => format!("{caller} exit {}", random.between(-1000, 1000)),
        57..=68 => format!("{} wait", reaper(t, caller, random)),
        69..=74 => format!("{caller} getpid"),
        75..=80 => format!("{caller} getppid"),
        81..=90 => format!("{caller} handle {} {}", random.below(33), random.below(4).min(1)),
        91..=96 => format!("{caller} poll"),
        _ => format!("{caller} kill {} 18", seen(t, caller, random)),
    }
}

/// A running process with an ended child, or else the caller.
fn reaper(t: &Table, caller: u8, random: &mut Random) -> u8 {
    let parents: Vec<u8> = t
        .each_process()
        .filter(|(_, p)| p.has_ended() && t.processes[p.parent as usize].state == State::Running)
        .map(|(_, p)| p.parent)
        .collect();
    if parents.is_empty() {
        caller
    } else {
        random.pick(&parents)
    }
}

/// A number that the caller sees, or now and then any small one.
fn seen(t: &Table, caller: u8, random: &mut Random) -> i32 {
    if random.one_in(20) {
        return random.between(-3, 36);
    }
    let own = t.processes[caller as usize].own;
    let level = t.namespaces[own as usize].level as usize;
    let numbers: Vec<u16> = t.each_process().filter(|(_, p)| t.below(p.own, own)).map(|(_, p)| p.pids[level]).collect();
    random.pick(&numbers).into()
}

/// What a script has, found by playing it.
#[derive(Default)]
pub struct Facts {
    pub lines: usize,
    /// lines until the table is full for the first time
    pub filling: usize,
    /// the fewest processes after that
    pub least: usize,
    pub most_namespaces: usize,
    pub deepest: u8,
    /// the deepest level with a living namespace, where it is least, after the filling
    pub chain: u8,
    /// how often each call was granted
    pub granted: [usize; 10],
    pub refused: usize,
}

pub const CALLS: [&str; 10] =
    ["clone", "unshare", "setns", "kill", "exit", "wait", "getpid", "getppid", "handle", "poll"];

impl Facts {
    /// Whether the script is what the benchmark asks for.
    pub fn hold(&self, kept: &Kept) -> bool {
        self.lines == LINES
            && self.filling != 0
            && self.least >= LEAST_PROCESSES
            && self.granted.iter().all(|&granted| granted >= LEAST_GRANTED)
            && (self.deepest, self.most_namespaces) == (kept.deepest, kept.namespaces)
            && self.chain >= kept.chain
    }
}

fn place_of(call: Call) -> usize {
    match call {
        Call::Clone | Call::CloneNew => 0,
        Call::Unshare => 1,
        Call::Setns(_) => 2,
        Call::Kill(..) => 3,
        Call::Exit(_) => 4,
        Call::Wait => 5,
        Call::Getpid => 6,
        Call::Getppid => 7,
        Call::Handle(..) => 8,
        Call::Poll => 9,
    }
}

/// Plays a script and tells what it has. `visit` is shown the table before each line.
pub fn facts(script: &[u8], mut visit: impl FnMut(&Table)) -> Facts {
    let mut table = Table::fresh();
    let mut facts = Facts { least: PROCESSES, chain: DEEPEST, ..Facts::default() };
    for line in script.split_inclusive(|&b| b == b'\n') {
        visit(&table);
        match parse(line.strip_suffix(b"\n").unwrap_or(line)) {
            Some((slot, call)) => match table.step_after(is_sound, slot, call) {
                Ok(_) => facts.granted[place_of(call)] += 1,
                Err(_) => facts.refused += 1,
            },
            None => facts.refused += 1,
        }
        facts.see(&table);
    }
    facts
}

impl Facts {
    fn see(&mut self, t: &Table) {
        let count = t.each_process().count();
        self.lines += 1;
        if self.filling != 0 {
            self.least = self.least.min(count);
            self.chain = self.chain.min(deepest_living(t));
        } else if count == PROCESSES {
            self.filling = self.lines;
        }
        self.most_namespaces = self.most_namespaces.max(t.each_namespace().count());
        self.deepest = self.deepest.max(t.each_namespace().map(|(_, n)| n.level).max().unwrap_or(0));
    }
}
