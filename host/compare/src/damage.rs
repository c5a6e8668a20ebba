//! The kinds of damage that a table is given.

use crate::fields::{fields, Field, Records, OF_NAMESPACES, OF_PROCESSES};
use reference::mirror::{bytes, Bytes, BYTES};
use reference::table::{End, Life, Namespace, Process, State, Table, DEEPEST, LEVELS, MAX_PID, NAMESPACES, PROCESSES};
use scripts::random::Random;

/// Damages a table, or leaves it where the table has nothing of the kind.
type Damage = fn(&mut Table, &mut Random);

/// Damages the bytes of a table, or leaves them.
type Change = dyn Fn(&mut Bytes, &Table, &mut Random);

pub struct Kind {
    pub name: String,
    /// whether it leaves bytes that no writer makes
    pub is_foreign: bool,
    /// whether it is for the search, which is asked for the number of each namespace then
    pub is_search: bool,
    change: Box<Change>,
}

impl Kind {
    fn new(name: &str, change: impl Fn(&mut Bytes, &Table, &mut Random) + 'static) -> Kind {
        Kind { name: name.into(), is_foreign: false, is_search: false, change: Box::new(change) }
    }

    /// A kind that changes the table that is written then.
    fn of_table(name: &str, damage: impl Fn(&mut Table, &mut Random) + 'static) -> Kind {
        Kind::new(name, move |all, t, random| {
            let mut t = t.clone();
            damage(&mut t, random);
            *all = bytes(&t);
        })
    }

    pub fn of_search(name: &str, damage: impl Fn(&mut Table, &mut Random) + 'static) -> Kind {
        Kind { is_search: true, ..Kind::of_table(name, damage) }
    }

    /// The bytes of a damaged table.
    pub fn of(&self, t: &Table, random: &mut Random) -> Bytes {
        let mut all = bytes(t);
        (self.change)(&mut all, t, random);
        all
    }
}

/// So many kinds, the first ones, may be any damage.
pub const BROAD: usize = 2;

/// Any byte, several, each field, and what is special or foreign.
pub fn kinds() -> Vec<Kind> {
    let mut kinds = vec![Kind::new("one byte", |all, _, random| one_byte(all, random)), Kind::new("several", several)];
    for (of, field) in [OF_PROCESSES, OF_NAMESPACES].iter().flat_map(|of| fields(of).into_iter().map(move |f| (of, f)))
    {
        let name = format!("{}: {}", of.name, field.name);
        kinds.push(Kind::new(&name, move |all, t, random| change(all, of, &field, t, random)));
    }
    kinds.extend(SPECIAL.map(|(name, damage)| Kind::of_table(name, damage)));
    kinds.extend(FOREIGN.map(|foreign| Kind {
        is_foreign: true,
        ..Kind::new(foreign.name, move |all, t, random| foreign.put(all, t, random))
    }));
    kinds
}

fn one_byte(all: &mut Bytes, random: &mut Random) {
    all[random.below(BYTES)] = random.below(256) as u8;
}

fn several(all: &mut Bytes, t: &Table, random: &mut Random) {
    for _ in 0..random.between(2, 5) {
        let of = random.pick(&[OF_PROCESSES, OF_NAMESPACES]);
        match random.below(3) {
            0 => one_byte(all, random),
            _ => change(all, &of, &fields(&of)[random.below(fields(&of).len())], t, random),
        }
    }
}

/// Damage that takes more than one field at random.
const SPECIAL: [(&str, Damage); 10] = [
    ("a slot out of range", out_of_range),
    ("a circle of parents", circle_of_parents),
    ("a circle of namespaces", circle_of_namespaces),
    ("a number that two share", shared_number),
    ("a second holder of an unborn namespace", second_holder),
    ("a second number 1", second_first),
    ("another init", another_init),
    ("a namespace that nobody holds", unheld_namespace),
    ("an ended parent", ended_parent),
    ("a namespace below the deepest level", too_deep),
];

/// A byte that is written as 0 or as one of a few.
struct Foreign {
    name: &'static str,
    of: Records,
    byte: usize,
    least: i32,
    /// whether a record is one where such a byte is foreign
    beside: fn(&[u8]) -> bool,
}

/// Bytes that no writer makes, in any slot: an empty one, too, must have none of them.
const FOREIGN: [Foreign; 5] = [
    Foreign { name: "a state above 3", of: OF_PROCESSES, byte: 3, least: 4, beside: |_| true },
    Foreign { name: "an end without an ended state", of: OF_PROCESSES, byte: 4, least: 1, beside: |p| p[3] < 2 },
    Foreign { name: "a reserved byte", of: OF_PROCESSES, byte: 5, least: 1, beside: |_| true },
    Foreign { name: "a life above 2", of: OF_NAMESPACES, byte: 2, least: 3, beside: |_| true },
    Foreign { name: "an init without life", of: OF_NAMESPACES, byte: 3, least: 1, beside: |n| n[2] != 1 },
];

impl Foreign {
    fn put(&self, all: &mut Bytes, t: &Table, random: &mut Random) {
        let record = self.of.record(a_slot(&self.of, t, random));
        if (self.beside)(&all[record.clone()]) {
            all[record.start + self.byte] = random.between(self.least, 255) as u8;
        }
    }
}

/// Values that a damaged field takes: small ones, levels and slots in and out of range, numbers at their bounds, sets
/// of signals.
const VALUES: [u32; 27] = [
    0, 1, 2, 3, 5, 7, 8, 9, 19, 31, 32, 33, 47, 48, 49, 63, 64, 65, 254, 255, 256, 299, 300, 32_767, 32_768, 65_535,
    0xffffffff,
];

/// A field of some record gets a value at some bound, another record's value of the field, or one more or less.
fn change(all: &mut Bytes, of: &Records, field: &Field, t: &Table, random: &mut Random) {
    let value = |slot| field.value(&all[of.record(slot)]);
    let slot = a_slot(of, t, random);
    let value = match random.below(4) {
        0 => random.pick(&VALUES),
        1 => value(random.below(of.number)),
        2 => value(slot).wrapping_add(1),
        _ => value(slot).wrapping_sub(1),
    };
    all[of.record(slot).start + field.bytes.start..][..field.bytes.len()]
        .copy_from_slice(&value.to_le_bytes()[..field.bytes.len()]);
}

/// Some slot, mostly one in use.
fn a_slot(of: &Records, t: &Table, random: &mut Random) -> usize {
    let used: Vec<u8> = if *of == OF_PROCESSES { processes(t) } else { namespaces(t) };
    if random.one_in(5) {
        random.below(of.number)
    } else {
        random.pick(&used).into()
    }
}

fn processes(t: &Table) -> Vec<u8> {
    t.each_process().map(|(i, _)| i).collect()
}

fn namespaces(t: &Table) -> Vec<u8> {
    t.each_namespace().map(|(n, _)| n).collect()
}

/// One of some slots, if there is any.
fn one_of(slots: Vec<u8>, random: &mut Random) -> Option<usize> {
    (!slots.is_empty()).then(|| random.pick(&slots).into())
}

fn out_of_range(t: &mut Table, random: &mut Random) {
    let i = random.pick(&processes(t)) as usize;
    let n = random.pick(&namespaces(t)) as usize;
    let no_process = random.between(PROCESSES as i32, 254) as u8;
    let no_namespace = random.between(NAMESPACES as i32, 254) as u8;
    match random.below(5) {
        0 => t.processes[i].own = no_namespace,
        1 => t.processes[i].children = no_namespace,
        2 => t.processes[i].parent = no_process,
        3 => t.namespaces[n].parent = no_namespace,
        _ => t.namespaces[n].life = Life::Alive(no_process),
    }
}

/// One to four processes become each other's parents in a circle.
fn circle_of_parents(t: &mut Table, random: &mut Random) {
    let members = some_of(&processes(t)[1..], random);
    for (k, &i) in members.iter().enumerate() {
        t.processes[i as usize].parent = members[(k + 1) % members.len()];
    }
}

fn circle_of_namespaces(t: &mut Table, random: &mut Random) {
    let members = some_of(&namespaces(t)[1..], random);
    for (k, &n) in members.iter().enumerate() {
        t.namespaces[n as usize].parent = members[(k + 1) % members.len()];
    }
}

/// At most four of some slots, in any order.
fn some_of(slots: &[u8], random: &mut Random) -> Vec<u8> {
    let mut left = slots.to_vec();
    let count = (1 + random.below(4)).min(left.len());
    (0..count).map(|_| left.swap_remove(random.below(left.len()))).collect()
}

/// A process gets the number that another has in a namespace that sees both.
fn shared_number(t: &mut Table, random: &mut Random) {
    let n = random.pick(&namespaces(t));
    let level = t.namespaces[n as usize].level as usize;
    let seen: Vec<u8> = t.each_process().filter(|(_, p)| t.below(p.own, n)).map(|(i, _)| i).collect();
    let (Some(i), Some(j)) = (one_of(seen.clone(), random), one_of(seen, random)) else { return };
    t.processes[i].pids[level] = t.processes[j].pids[level];
}

fn second_holder(t: &mut Table, random: &mut Random) {
    let unborn = t.each_namespace().filter(|(_, s)| s.life == Life::Unborn).map(|(n, _)| n).collect();
    let Some(n) = one_of(unborn, random) else { return };
    let i = random.pick(&processes(t));
    t.processes[i as usize].children = n as u8;
}

/// A process gets number 1 in its own namespace, beside the init.
fn second_first(t: &mut Table, random: &mut Random) {
    let i = random.pick(&processes(t)) as usize;
    let level = t.namespaces[t.processes[i].own as usize].level;
    t.processes[i].pids[level as usize] = 1;
}

fn another_init(t: &mut Table, random: &mut Random) {
    let n = random.pick(&namespaces(t)) as usize;
    t.namespaces[n].life = Life::Alive(random.pick(&processes(t)));
}

fn free_namespaces(t: &Table) -> Vec<u8> {
    (1..NAMESPACES as u8).filter(|&n| t.namespace(n).is_none()).collect()
}

/// A dead namespace, right in its place, in a free slot.
fn unheld_namespace(t: &mut Table, random: &mut Random) {
    let free = free_namespaces(t);
    let above = t.each_namespace().filter(|(_, s)| s.level < DEEPEST).map(|(n, _)| n).collect();
    let (Some(n), Some(parent)) = (one_of(free, random), one_of(above, random)) else { return };
    let level = t.namespaces[parent].level + 1;
    t.namespaces[n] = Namespace { parent: parent as u8, level, last: random.below(400) as u16, life: Life::Dead };
}

/// A process with children has ended, as an ended one should look.
fn ended_parent(t: &mut Table, random: &mut Random) {
    let parents = t.each_process().filter(|(i, _)| *i != 0).map(|(_, p)| p.parent).filter(|&i| i != 0).collect();
    let Some(i) = one_of(parents, random) else { return };
    if !matches!(t.processes[i].state, State::Ended(_)) {
        t.processes[i].end(End::Signaled(9));
    }
}

/// A dead namespace right below one on the deepest level, with an ended child of the root init in it: all is as it
/// should be but the level.
fn too_deep(t: &mut Table, random: &mut Random) {
    let deepest = t.each_namespace().filter(|(_, s)| s.level == DEEPEST && s.life != Life::Unborn);
    let above = one_of(deepest.map(|(n, _)| n).collect(), random);
    let free = t.processes.iter().position(|p| !p.is_taken());
    let (Some(parent), Some(i), Some(n)) = (above, free, one_of(free_namespaces(t), random)) else { return };
    t.namespaces[n] = Namespace { parent: parent as u8, level: DEEPEST + 1, last: 1, life: Life::Dead };
    t.processes[i] = Process { own: n as u8, pids: [MAX_PID; LEVELS], ..Process::EMPTY };
    t.processes[i].end(End::Exited(0));
}
