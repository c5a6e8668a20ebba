//! Numbers going round among many. Every birth is in the inner of two namespaces and takes a number on three levels.
//! When the numbers start again from 300, each level must pass dozens in a row that are held.

use crate::rounds::{collect, AGAIN, SIGNAL};
use crate::writer::Writer;
use reference::table::{MAX_PID, PROCESSES};

/// The inits have their levels for slots. This is the last one.
const INNER: u8 = 2;

/// A child of the last init. Its children are held: it waits for none of them before the end.
const KEEPER: u8 = 3;

/// So many are held. They have the numbers from 300 on of the last level, and of each level above one more.
const HELD: u16 = 52;

/// So many births follow the last level's 32,767. With them every level has passed the numbers that are held.
const BEYOND: u16 = 8;

/// A script of births in batches. A batch ends by one signal and is collected.
pub fn round_among_many(seed: u64) -> Vec<u8> {
    let mut writer = Writer::from_seed(seed);
    chain(&mut writer);
    // The number of the next birth on the last level, as if it never started again.
    let mut next = 3;
    while next < MAX_PID + BEYOND {
        if next == AGAIN {
            (0..HELD).for_each(|k| held_birth(&mut writer, k));
            next += HELD;
        }
        let left = if next < AGAIN { AGAIN } else { MAX_PID + BEYOND } - next;
        let births = left.min((PROCESSES - writer.table.each_process().count()) as u16);
        batch(&mut writer, births);
        next += births;
    }
    collect(&mut writer, KEEPER);
    writer.script()
}

/// An init on each level, whose children will be born on the last; and the keeper.
fn chain(writer: &mut Writer) {
    for line in ["0 clone new", "1 clone new", "0 setns 3", "1 setns 2", "2 clone"] {
        writer.line(line);
    }
    writer.line(&format!("{KEEPER} handle {SIGNAL} 1"));
}

/// Of the children that are held every other one ends and is left uncollected.
fn held_birth(writer: &mut Writer, k: u16) {
    let slot = u16::from(KEEPER) + 1 + k;
    writer.line(&format!("{KEEPER} clone"));
    let line = if k.is_multiple_of(2) { format!("{slot} exit {slot}") } else { format!("{slot} handle {SIGNAL} 1") };
    writer.line(&line);
}

fn batch(writer: &mut Writer, births: u16) {
    let [parent, killer] = [0; 2].map(|_: u8| writer.random.below(INNER as usize + 1) as u8);
    (0..births).for_each(|_| writer.line(&format!("{parent} clone")));
    writer.line(&format!("{killer} kill -1 {SIGNAL}"));
    collect(writer, parent);
}

#[cfg(test)]
mod tests {
    use super::*;
    use reference::script::run_line_after;
    use reference::table::Table;

    /// The numbers that each level gave after 32,767.
    fn given_again(script: &[u8]) -> [Vec<u16>; 3] {
        let mut t = Table::fresh();
        let mut again: [Vec<u16>; 3] = Default::default();
        let mut tops = [false; 3];
        for line in script.split(|&b| b == b'\n') {
            run_line_after(|_| true, &mut t, line);
            for n in (0..3).filter(|_| line.ends_with(b" clone")) {
                again[n].extend(tops[n].then_some(t.namespaces[n].last));
                tops[n] |= t.namespaces[n].last == MAX_PID;
            }
        }
        again
    }

    #[test]
    fn every_level_passes_those_that_are_held() {
        let [root, middle, inner] = given_again(&round_among_many(1));
        assert_eq!(root[..4], [300, 301, 354, 355]);
        assert_eq!(middle[..4], [300, 353, 354, 355]);
        assert_eq!(inner[..4], [352, 353, 354, 355]);
    }
}
