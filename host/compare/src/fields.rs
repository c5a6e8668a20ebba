//! The fields of a table's bytes, by name.

use reference::mirror::{Bytes, NAMESPACES_AT, NAMESPACE_BYTES, PROCESS_BYTES};
use reference::table::{LEVELS, NAMESPACES, PROCESSES};
use std::ops::Range;

/// The kind of a record: where the first stands, how long it is, and how many there are.
#[derive(Clone, Copy, PartialEq, Eq)]
pub struct Records {
    pub name: &'static str,
    pub start: usize,
    pub size: usize,
    pub number: usize,
}

pub const OF_PROCESSES: Records = Records { name: "process", start: 0, size: PROCESS_BYTES, number: PROCESSES };
pub const OF_NAMESPACES: Records =
    Records { name: "namespace", start: NAMESPACES_AT, size: NAMESPACE_BYTES, number: NAMESPACES };

impl Records {
    /// The records, the slot of the record and its byte that a byte of a table is.
    pub fn around(at: usize) -> (Records, usize, usize) {
        let of = if at < NAMESPACES_AT { OF_PROCESSES } else { OF_NAMESPACES };
        let from_start = at - of.start;
        (of, from_start / of.size, from_start % of.size)
    }

    /// The bytes of the record at a slot.
    pub fn record(&self, slot: usize) -> Range<usize> {
        let at = self.start + self.size * slot;
        at..at + self.size
    }

    /// The bytes of each record.
    pub fn all(&self) -> impl Iterator<Item = Range<usize>> + '_ {
        (0..self.number).map(|slot| self.record(slot))
    }
}

/// A field: its name, and where it stands in its record.
#[derive(Clone)]
pub struct Field {
    pub name: String,
    pub bytes: Range<usize>,
}

impl Field {
    /// Its number in a record, which has the low byte first.
    pub fn value(&self, record: &[u8]) -> u32 {
        record[self.bytes.clone()].iter().rev().fold(0, |high, &low| high << 8 | u32::from(low))
    }
}

/// The fields of a kind of record, in their order.
pub fn fields(of: &Records) -> Vec<Field> {
    let named = |name: &str, size| (name.to_string(), size);
    let sizes: Vec<(String, usize)> = if *of == OF_PROCESSES {
        let first =
            ["own namespace", "children's namespace", "parent", "state", "end", "reserved"].map(|f| named(f, 1));
        let numbers = (0..LEVELS).map(|level| (format!("number at level {level}"), 2));
        first.into_iter().chain(numbers).chain(["handled", "pending"].map(|f| named(f, 4))).collect()
    } else {
        let first = ["parent", "level", "life", "init"].map(|f| named(f, 1));
        first.into_iter().chain([named("last number", 2)]).collect()
    };
    let mut at = 0;
    let place = |(name, size)| {
        at += size;
        Field { name, bytes: at - size..at }
    };
    sizes.into_iter().map(place).collect()
}

/// The field of a byte.
pub fn field_at(at: usize) -> Field {
    let (of, _, byte) = Records::around(at);
    fields(&of).into_iter().find(|field| field.bytes.contains(&byte)).expect("each byte is a field's")
}

/// The record and the field of a byte.
pub fn name_of(at: usize) -> String {
    let (of, slot, _) = Records::around(at);
    format!("{} {slot}, {}", of.name, field_at(at).name)
}

/// The value of the field of a byte.
pub fn value_at(all: &Bytes, at: usize) -> u32 {
    let (of, slot, _) = Records::around(at);
    field_at(at).value(&all[of.record(slot)])
}

#[cfg(test)]
mod tests {
    use super::*;
    use reference::mirror::{bytes, BYTES};
    use reference::table::{Life, Table};

    #[test]
    fn fields_fill_their_records() {
        for of in [OF_PROCESSES, OF_NAMESPACES] {
            assert_eq!(fields(&of).last().map(|field| field.bytes.end), Some(of.size));
        }
        assert_eq!(OF_NAMESPACES.all().last().map(|record| record.end), Some(BYTES));
    }

    /// A change of one field changes the byte of its name alone.
    #[test]
    fn names_are_those_of_the_bytes() {
        let named = |change: fn(&mut Table)| {
            let mut t = Table::fresh();
            change(&mut t);
            let (before, after) = (bytes(&Table::fresh()), bytes(&t));
            (0..BYTES).filter(|&at| before[at] != after[at]).map(name_of).collect::<Vec<_>>().join("; ")
        };
        assert_eq!(named(|t| t.processes[3].own = 1), "process 3, own namespace");
        assert_eq!(named(|t| t.processes[4].children = 1), "process 4, children's namespace");
        assert_eq!(named(|t| t.processes[5].parent = 1), "process 5, parent");
        assert_eq!(named(|t| t.processes[63].pids[32] = 256), "process 63, number at level 32");
        assert_eq!(named(|t| t.processes[0].pending = 1 << 31), "process 0, pending");
        assert_eq!(named(|t| t.namespaces[0].life = Life::Dead), "namespace 0, life");
        assert_eq!(named(|t| t.namespaces[47].last = 1), "namespace 47, last number");
    }
}
