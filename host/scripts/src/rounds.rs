//! Numbers going round. Every birth is in the deepest namespace of a chain and takes a number on each level, so all
//! levels pass 32,767 in one script and start again from 300, where some numbers are still held.

use crate::writer::Writer;
use reference::table::{Process, DEEPEST, LEVELS, MAX_PID, PROCESSES};

/// The chain's inits have their levels for slots. This is the last one.
const INNER: u8 = DEEPEST;

/// A child of the last init. Its children are held: it waits for none of them before the end.
const KEEPER: u8 = DEEPEST + 1;

/// Ends all but the inits, the keeper, and those of its children that live: these handle it.
pub(crate) const SIGNAL: u8 = 15;

/// Numbers start again here.
pub(crate) const AGAIN: u16 = 300;

/// When so many children are held no more are by chance, which leaves slots for the others.
const MANY: usize = 14;

/// So many births follow the last level's 32,767. With them every level has passed the numbers that are held.
const BEYOND: u16 = 40;

/// A script of births in batches. A batch has a parent on any level; it ends by one signal and is collected.
pub fn round(seed: u64) -> Vec<u8> {
    let mut writer = Writer::from_seed(seed);
    chain(&mut writer);
    // The number of the next birth on the last level, as if it never started again.
    let mut next = 3;
    while next <= MAX_PID + BEYOND {
        let parent = writer.random.below(LEVELS) as u8;
        for _ in 0..size(&mut writer) {
            birth(&mut writer, parent, next);
            next += 1;
        }
        let killer = writer.random.below(LEVELS);
        writer.line(&format!("{killer} kill -1 {SIGNAL}"));
        collect(&mut writer, parent);
    }
    collect(&mut writer, KEEPER);
    writer.script()
}

/// An init on each level, whose children will be born on the last; and the keeper.
fn chain(writer: &mut Writer) {
    for level in 0..INNER {
        writer.line(&format!("{level} clone new"));
    }
    for level in 0..INNER {
        let inner = writer.table.processes[INNER as usize].pids[level as usize];
        writer.line(&format!("{level} setns {inner}"));
    }
    writer.line(&format!("{INNER} clone"));
    writer.line(&format!("{KEEPER} handle {SIGNAL} 1"));
}

/// The births of a batch: as many as the table has room for, or up to half as many fewer.
fn size(writer: &mut Writer) -> usize {
    let room = PROCESSES - writer.table.each_process().count();
    (room - writer.random.below(room / 2 + 1)).max(1)
}

/// One birth, by the keeper where it will be held. When the first level is about to start again, its numbers are looked
/// up on all levels.
fn birth(writer: &mut Writer, parent: u8, next: u16) {
    if will_be_held(writer, next) {
        held_birth(writer);
    } else {
        writer.line(&format!("{parent} clone"));
    }
    if next + LEVELS as u16 + 1 > MAX_PID {
        look_up(writer);
    }
}

/// Whether the next birth takes 300 on the first level, the one in the middle or the last; and one in four near these.
fn will_be_held(writer: &mut Writer, next: u16) -> bool {
    let first = AGAIN - DEEPEST as u16;
    let is_near = (first..AGAIN + 16).contains(&next);
    let is_one_of_three = is_near && (next - first).is_multiple_of(DEEPEST as u16 / 2);
    is_one_of_three || is_near && held(writer) < MANY && writer.random.one_in(4)
}

fn held(writer: &Writer) -> usize {
    writer.table.each_process().filter(|(_, p)| p.parent == KEEPER).count()
}

/// Of the children that are held every other one ends and is left uncollected.
fn held_birth(writer: &mut Writer) {
    let ends = held(writer).is_multiple_of(2);
    writer.line(&format!("{KEEPER} clone"));
    let Some((slot, _)) = youngest(writer) else { return };
    let line = if ends { format!("{slot} exit {slot}") } else { format!("{slot} handle {SIGNAL} 1") };
    writer.line(&line);
}

/// The process that was given the last level's last number.
fn youngest(writer: &Writer) -> Option<(u8, &Process)> {
    let t = &writer.table;
    let deepest = t.processes[INNER as usize].own;
    t.each_process().find(|(_, p)| p.pids[DEEPEST as usize] == t.namespaces[deepest as usize].last)
}

/// The youngest has its number on each level.
fn look_up(writer: &mut Writer) {
    let Some((_, &Process { pids, .. })) = youngest(writer) else { return };
    for (level, pid) in pids.iter().enumerate() {
        writer.line(&format!("{level} kill {pid} 0"));
    }
}

/// The parent waits for all its children that have ended.
pub(crate) fn collect(writer: &mut Writer, parent: u8) {
    let ended = writer.table.each_process().filter(|(_, p)| p.parent == parent && p.has_ended()).count();
    for _ in 0..ended {
        writer.line(&format!("{parent} wait"));
    }
}

#[cfg(test)]
mod tests {
    use super::*;
    use reference::script::run_line_after;
    use reference::table::Table;

    /// The three numbers that a level gave last, up to the one after 32,767; and whether the holder of 300 had ended
    /// then.
    #[derive(Clone, Copy, Default)]
    struct Given {
        numbers: [u16; 3],
        holder_ended: Option<bool>,
    }

    impl Given {
        fn look(&mut self, t: &Table, level: usize) {
            let last = t.each_namespace().find(|(_, n)| n.level as usize == level).map_or(0, |(_, n)| n.last);
            let [_, before, latest] = self.numbers;
            if last != latest && before != MAX_PID {
                self.numbers = [before, latest, last];
                let holder = t.each_process().find(|(_, p)| p.pids[level] == AGAIN && last != AGAIN);
                self.holder_ended = holder.map(|(_, p)| p.has_ended());
            }
        }
    }

    /// What each level gave.
    fn played(script: &[u8]) -> [Given; LEVELS] {
        let mut t = Table::fresh();
        let mut levels = [Given::default(); LEVELS];
        for line in script.split(|&b| b == b'\n') {
            run_line_after(|_| true, &mut t, line);
            if line.ends_with(b" clone") {
                levels.iter_mut().enumerate().for_each(|(level, given)| given.look(&t, level));
            }
        }
        levels
    }

    #[test]
    fn every_level_starts_again_and_300_is_held() {
        let levels = played(&round(1));
        for Given { numbers: [a, b, c], .. } in levels {
            assert_eq!([a, b], [MAX_PID - 1, MAX_PID]);
            assert!((AGAIN..AGAIN + 16).contains(&c));
        }
        let held = |level: u8| levels[level as usize].holder_ended.is_some();
        assert!(held(0) && held(DEEPEST / 2) && held(DEEPEST));
        assert!(levels.iter().any(|given| given.holder_ended == Some(true)));
        assert!(levels.iter().any(|given| given.holder_ended == Some(false)));
    }
}
