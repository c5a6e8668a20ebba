//! Scripts of several kinds. The reference plays along, so that most calls are by a running process and name one that
//! the caller sees.

use crate::random::Random;
use crate::writer::Writer;
use reference::calls::Call;
use reference::script::parse;
use reference::table::{State, Table, DEEPEST};

/// What a kind of script is made of: how often each call is drawn, and how full the table is kept.
#[derive(Clone, Copy)]
pub struct Kind {
    pub name: &'static str,
    /// clone, clone new, unshare, setns, kill, kill -1, exit, wait, getpid, getppid, handle, poll
    weights: [usize; 12],
    /// ends and waits are skipped while there are fewer processes
    keep: usize,
    /// one line in so many is a bad one, or a bad caller's (0: none)
    bad: usize,
    /// it starts with a chain of namespaces to the deepest level, and every other caller is one of the deepest
    deep: bool,
    /// the signals that are sent and handled (none: all, and numbers that no signal has)
    signals: &'static [i32],
}

impl Kind {
    const fn new(name: &'static str, weights: [usize; 12], keep: usize, bad: usize) -> Kind {
        Kind { name, weights, keep, bad, deep: false, signals: &[] }
    }

    /// Whether the line at a place, from 0 on, is one of the chain at the start.
    pub fn in_chain(&self, place: usize) -> bool {
        self.deep && place < DEEPEST as usize
    }

    /// A call that a script of the kind, not in its chain, goes on with.
    pub fn call(&self, t: &Table, random: &mut Random) -> (u8, Call) {
        parse(good_line(self, t, random).as_bytes()).expect("a good line is a call")
    }
}

pub const KINDS: [Kind; 10] = [
    Kind::new("any calls", [14, 7, 6, 8, 14, 2, 6, 12, 5, 5, 10, 6], 0, 20),
    Kind::new("near 64 processes", [30, 6, 3, 5, 8, 1, 6, 12, 3, 3, 4, 3], 58, 40),
    Kind { deep: true, ..Kind::new("deep", [6, 24, 10, 12, 8, 1, 5, 10, 4, 6, 2, 1], 40, 0) },
    Kind::new("setns and unshare", [18, 5, 22, 24, 8, 1, 6, 10, 3, 4, 1, 1], 4, 0),
    Kind::new("kill -1", [24, 8, 3, 4, 4, 14, 2, 14, 2, 2, 12, 6], 0, 0),
    Kind::new("signals", [8, 3, 1, 2, 34, 4, 2, 8, 3, 1, 22, 16], 3, 0),
    Kind::new("orphans", [26, 8, 4, 8, 6, 1, 20, 16, 2, 12, 1, 1], 0, 0),
    Kind::new("malformed lines", [14, 7, 6, 8, 14, 2, 6, 12, 5, 5, 10, 6], 0, 2),
    Kind { deep: true, ..Kind::new("deep, near 64 processes", [40, 8, 8, 3, 2, 1, 2, 6, 2, 2, 2, 1], 62, 0) },
    Kind { signals: &STOPS, ..Kind::new("stops", [8, 10, 1, 2, 34, 4, 2, 6, 6, 1, 16, 12], 6, 0) },
];

/// Signals that stop and resume, and two that do not.
const STOPS: [i32; 10] = [10, 17, 18, 18, 18, 18, 19, 20, 21, 22];

const BAD_LINES: [&str; 32] = [
    "",
    " ",
    "0",
    "0 ",
    "?",
    "clone",
    "0 clone ",
    " 0 clone",
    "0  clone",
    "0 clone  new",
    "0 clone old",
    "0 Clone",
    "256 clone",
    "00 clone",
    "-1 clone",
    "-0 clone",
    "+1 clone",
    "0 kill 1",
    "0 kill 1 2 3",
    "0 kill +1 2",
    "0 kill 01 2",
    "0 kill -0 2",
    "0 kill 2147483648 0",
    "0 kill -2147483649 0",
    "0 handle 15 2",
    "0 handle 15 01",
    "0 exit",
    "0 setns x",
    "0 wait 1",
    "0 exit 99999999999999999999",
    "0\tclone",
    "0 clone\r",
];

/// A script of a kind from the fresh table.
pub fn script(kind: &Kind, seed: u64, lines: usize) -> Vec<u8> {
    let mut writer = Writer::from_seed(seed);
    for k in 0..lines {
        let random = &mut writer.random;
        let good = if kind.in_chain(k) { format!("{k} clone new") } else { good_line(kind, &writer.table, random) };
        let bad = kind.bad != 0 && random.one_in(kind.bad);
        let line = if bad { bad_line(&good, random) } else { good };
        writer.line(&line);
    }
    writer.script()
}

/// A line that is no call, or one by a caller that may not call; now and then it is a good one after all.
fn bad_line(good: &str, random: &mut Random) -> String {
    match random.below(6) {
        0 => format!("{} getpid", random.below(256)),
        1 => format!("0 getpid{}", " ".repeat(random.below(200))),
        2 | 3 => spoilt(good, random),
        _ => random.pick(&BAD_LINES).to_string(),
    }
}

/// A good line with one fault of form.
fn spoilt(good: &str, random: &mut Random) -> String {
    match random.below(9) {
        0 => good.replacen(' ', "  ", 1),
        1 => format!("{good} "),
        2 => format!("0{good}"),
        3 => format!("+{good}"),
        4 => good.to_uppercase(),
        5 => format!("{good} {}", random.below(40)),
        6 => good.replace(' ', "\t"),
        7 => format!("{good}{}", random.below(3_000_000_000)),
        _ => good[..random.below(good.len())].to_string(),
    }
}

/// A running process, of a deep kind every other time one of the deepest; and one time in 12 any, stopped or ended too.
fn a_caller(kind: &Kind, t: &Table, random: &mut Random) -> u8 {
    let all: Vec<u8> = t.each_process().map(|(i, _)| i).collect();
    let running: Vec<u8> = t.each_process().filter(|(_, p)| p.state == State::Running).map(|(i, _)| i).collect();
    if running.is_empty() || random.one_in(12) {
        return random.pick(&all);
    }
    let level = |&i: &u8| t.namespaces[t.processes[i as usize].own as usize].level;
    if kind.deep && random.one_in(2) {
        running.into_iter().max_by_key(level).expect("there is one")
    } else {
        random.pick(&running)
    }
}

/// A place, each as often as its weight says.
fn drawn(weights: &[usize], random: &mut Random) -> usize {
    let draw = random.below(weights.iter().sum());
    let mut sum = 0;
    let passed = |weight: &&usize| {
        sum += **weight;
        sum <= draw
    };
    weights.iter().take_while(passed).count()
}

fn good_line(kind: &Kind, t: &Table, random: &mut Random) -> String {
    let mut caller = a_caller(kind, t, random);
    let few = t.each_process().count() < kind.keep;
    let call = drawn(&kind.weights, random);
    match call {
        0 => format!("{caller} clone"),
        1 => format!("{caller} clone new"),
        2 => format!("{caller} unshare"),
        3 => format!("{caller} setns {}", number_seen(t, caller, random)),
        4 => format!("{caller} kill {} {}", number_seen(t, caller, random), signal(kind, few, random)),
        5 => {
            let gentle = few || random.below(3) != 0;
            format!("{caller} kill -1 {}", signal(kind, gentle, random))
        }
        6 if few => format!("{caller} clone"),
        6 => format!("{caller} exit {}", random.pick(&[0, 1, 7, 255, 256, -1, -256, 2147483647, -2147483648])),
        7 => {
            if let Some(parent) = a_reaper(t, random) {
                caller = parent;
            }
            format!("{caller} wait")
        }
        8 => format!("{caller} getpid"),
        9 => format!("{caller} getppid"),
        10 => format!("{caller} handle {} {}", signal(kind, false, random), random.below(4).min(1)),
        _ => format!("{caller} poll"),
    }
}

/// A number that the caller sees, or now and then any.
fn number_seen(t: &Table, caller: u8, random: &mut Random) -> i32 {
    if random.one_in(20) {
        return random.pick(&[0, -1, -2, 1, 2, 3, 40, 300, 32767, 32768, 65537, 2147483647, -2147483648]);
    }
    let own = t.processes[caller as usize].own;
    let level = t.namespaces[own as usize].level as usize;
    let seen: Vec<u16> = t.each_process().filter(|(_, p)| t.below(p.own, own)).map(|(_, p)| p.pids[level]).collect();
    random.pick(&seen).into()
}

fn signal(kind: &Kind, gentle: bool, random: &mut Random) -> i32 {
    match kind.signals {
        [] if gentle => random.pick(&[0, 10, 15, 17, 18, 20, 23, 28]),
        [] => random.between(-1, 33),
        signals => random.pick(signals),
    }
}

/// A running process with an ended child.
fn a_reaper(t: &Table, random: &mut Random) -> Option<u8> {
    let parents: Vec<u8> = t
        .each_process()
        .filter(|(_, p)| p.has_ended())
        .map(|(_, p)| p.parent)
        .filter(|&i| t.process(i).is_some_and(|p| p.state == State::Running))
        .collect();
    (!parents.is_empty() && !random.one_in(4)).then(|| random.pick(&parents))
}

/// Good lines with bytes changed, put in, taken out, and line feeds in odd places; the last one may be missing.
pub fn bytes(seed: u64, lines: usize) -> Vec<u8> {
    let mut random = Random::from_seed(seed);
    let mut script = script(&KINDS[0], seed, lines);
    for _ in 0..lines / 2 {
        let at = random.below(script.len());
        let byte = random.pick(b"0123456789- \n\t\r+clonewkiad\0\x80\xff");
        match random.below(4) {
            0 => script[at] = byte,
            1 => script.insert(at, byte),
            2 => {
                script.remove(at);
            }
            _ => {
                let run = vec![byte; random.below(150)];
                script.splice(at..at, run);
            }
        }
    }
    if random.one_in(2) && script.last() == Some(&b'\n') {
        script.pop();
    }
    script
}

/// Any bytes: all 256, or those of scripts alone, which make good lines now and then.
pub fn arbitrary(all: bool, seed: u64, length: usize) -> Vec<u8> {
    let mut random = Random::from_seed(seed);
    let of_scripts = b"0012 \n\n-cloneexitpollwait";
    (0..length).map(|_| if all { random.below(256) as u8 } else { random.pick(of_scripts) }).collect()
}
