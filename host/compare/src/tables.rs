//! Damaged tables: the proved check, the reference and its quick check must agree on each; and so must the two searches
//! for the number that a namespace gives next. In tables with long runs of numbers each namespace is asked for it.

use crate::damage::{kinds, Kind};
use crate::difference::again;
use crate::fields::{fields, Records, OF_NAMESPACES, OF_PROCESSES};
use crate::library;
use crate::runs;
use crate::searches::{Searches, OF_TABLES};
use reference::mirror::{bytes, table, Bytes};
use reference::script::run;
use reference::table::{Table, DEEPEST, NAMESPACES};
use reference::{quick, turns};
use scripts::generate::{script, KINDS};
use scripts::random::Random;

/// So many tables of each kind of damage.
const OF_EACH_KIND: usize = 2500;

/// Beside the slots of namespaces, these are asked for the next number.
const NO_SLOTS: [u32; 6] = [48, 64, 255, 256, 65_536, u32::MAX];

/// How many tables of a kind there were, and how many of them are sound all the same.
struct Count {
    kind: String,
    tables: usize,
    sound: usize,
}

/// What the library, the reference and its quick check say of a table, and the numbers that some namespaces give next
/// by the first two.
struct Verdicts {
    sound: [bool; 3],
    next: Vec<[u16; 2]>,
}

impl Verdicts {
    fn of(all: &Bytes, slots: &[u32]) -> Verdicts {
        let quick = table(all).is_some_and(|t| quick::is_sound(&t));
        let next = slots.iter().map(|&slot| [library::next_pid(all, slot), turns::next_pid(all, slot)]).collect();
        Verdicts { sound: [library::is_sound(all), turns::is_sound(all), quick], next }
    }

    /// The verdict where all agree.
    fn agreed(&self) -> Option<bool> {
        let [a, b, c] = self.sound;
        (a == b && b == c && self.odd_one().is_none()).then_some(a)
    }

    /// The first place among the slots at which the numbers differ.
    fn odd_one(&self) -> Option<usize> {
        self.next.iter().position(|[m, n]| m != n)
    }
}

fn all_slots() -> Vec<u32> {
    (0..NAMESPACES as u32).collect()
}

/// Sound tables of every kind that scripts make.
fn bases(seed: u64) -> Vec<Table> {
    let of_kind = |(k, kind)| {
        (0..24).map(move |place| {
            let mut t = Table::fresh();
            run(&mut t, &script(kind, seed.wrapping_add(1000 + 100 * k as u64 + place), 30 + 12 * place as usize));
            t
        })
    };
    KINDS.iter().enumerate().flat_map(of_kind).collect()
}

/// Holds tables against the reference and prints how many of each kind; or shows the first one that differs.
pub fn hold(seed: u64) -> Result<(), String> {
    let told = |(kind, told)| format!("{kind}, seed {seed}: {told}\n{}", again(&format!("tables --seed {seed}")));
    let mut seen = Searches::none(&OF_TABLES);
    let counts = hold_all(seed, &mut seen).map_err(told)?;
    report(&counts);
    println!("{seen}");
    seen.is_whole().map_err(|missing| told(("tables".into(), missing)))?;
    let damaged: usize = counts[1..].iter().map(|c| c.tables).sum();
    println!("compare: {damaged} damaged tables of {} kinds, no difference", counts.len() - 1);
    Ok(())
}

/// The kind of damage at which tables differ, and what is told of them.
type Difference = (String, String);

fn hold_all(seed: u64, seen: &mut Searches) -> Result<Vec<Count>, Difference> {
    let bases = bases(seed);
    let mut random = Random::from_seed(seed.wrapping_add(7));
    let mut counts = vec![hold_whole(&bases).map_err(|told| ("no damage".into(), told))?];
    for kind in kinds().into_iter().chain(runs::kinds()) {
        let count = hold_kind(&kind, &bases, &mut random, seen);
        counts.push(count.map_err(|told| (format!("damage '{}'", kind.name), told))?);
    }
    Ok(counts)
}

/// The tables as they are: sound to all, and some of them as deep and as full of namespaces as can be.
fn hold_whole(bases: &[Table]) -> Result<Count, String> {
    let deepest = bases.iter().any(|t| t.each_namespace().any(|(_, s)| s.level == DEEPEST));
    if !deepest || !bases.iter().any(|t| t.each_namespace().count() == NAMESPACES) {
        return Err("no table reaches the deepest level, or has every namespace slot taken".into());
    }
    let slots = [&all_slots()[..], &NO_SLOTS].concat();
    let odd = bases.iter().map(bytes).find(|all| Verdicts::of(all, &slots).agreed() != Some(true));
    match odd.map(|all| (all, odd_slot(&all, &slots))) {
        Some((all, slot)) => Err(format!("a table that calls made is not sound to all:\n{}", shown(&all, slot))),
        None => Ok(Count { kind: "none".into(), tables: bases.len(), sound: bases.len() }),
    }
}

/// Damages the tables in turn until there are enough that are not what they were.
fn hold_kind(kind: &Kind, bases: &[Table], random: &mut Random, seen: &mut Searches) -> Result<Count, String> {
    let mut count = Count { kind: kind.name.clone(), tables: 0, sound: 0 };
    for t in bases.iter().cycle().take(100 * OF_EACH_KIND) {
        let damaged = kind.of(t, random);
        if damaged == bytes(t) {
            continue;
        }
        let slots = if kind.is_search { all_slots() } else { vec![slot_to_ask(&bytes(t), &damaged, random)] };
        let verdict = hold_table(kind, &damaged, &slots, seen)?;
        count.tables += 1;
        count.sound += usize::from(verdict);
        if count.tables == OF_EACH_KIND {
            return Ok(count);
        }
    }
    Err("too few tables could be given it".into())
}

/// The verdict on a table, on which all must agree, and on the numbers of the namespaces at some slots too.
fn hold_table(kind: &Kind, all: &Bytes, slots: &[u32], seen: &mut Searches) -> Result<bool, String> {
    let verdicts = Verdicts::of(all, slots);
    let Some(verdict) = verdicts.agreed() else {
        let slot = odd_slot(all, slots);
        return Err(format!("a difference:\n{}", shown(&shrink(*all, slot), slot)));
    };
    if verdict && kind.is_foreign {
        return Err(format!("it is sound to all:\n{}", shown(all, slots[0])));
    }
    if let Some(t) = table(all).filter(|_| kind.is_search) {
        verdicts.next.iter().zip(slots).for_each(|([_, given], &slot)| seen.count(&t, slot as usize, *given));
    }
    Ok(verdict)
}

/// Of some slots the one whose numbers differ, or else the first.
fn odd_slot(all: &Bytes, slots: &[u32]) -> u32 {
    slots[Verdicts::of(all, slots).odd_one().unwrap_or(0)]
}

/// The slot of a namespace whose number is asked for: one that is damaged, any, or one that is none.
fn slot_to_ask(before: &Bytes, damaged: &Bytes, random: &mut Random) -> u32 {
    let slots: Vec<usize> =
        (0..NAMESPACES).filter(|&n| before[OF_NAMESPACES.record(n)] != damaged[OF_NAMESPACES.record(n)]).collect();
    match random.below(20) {
        0 => random.pick(&NO_SLOTS),
        1..=14 if !slots.is_empty() => random.pick(&slots) as u32,
        _ => random.below(NAMESPACES) as u32,
    }
}

fn report(counts: &[Count]) {
    println!("{:40} {:>7} {:>12}", "damage", "tables", "still sound");
    for count in counts {
        println!("{:40} {:>7} {:>12}", count.kind, count.tables, count.sound);
    }
}

// ---- a difference

/// Empties records as long as there is still a difference.
fn shrink(mut all: Bytes, slot: u32) -> Bytes {
    for record in OF_PROCESSES.all().chain(OF_NAMESPACES.all()) {
        let mut fewer = all;
        fewer[record].fill(0);
        if Verdicts::of(&fewer, &[slot]).agreed().is_none() {
            all = fewer;
        }
    }
    all
}

/// The fields that are not 0, and the verdicts.
fn shown(all: &Bytes, slot: u32) -> String {
    let records = [OF_PROCESSES, OF_NAMESPACES].into_iter().flat_map(|of| (0..of.number).map(move |k| (of, k)));
    let mut text: String = records.filter_map(|(of, k)| record_text(of, k, &all[of.record(k)])).collect();
    let verdicts = Verdicts::of(all, &[slot]);
    let ([library, reference, quick], [next, expected]) = (verdicts.sound, verdicts.next[0]);
    text += &format!("  sound: {library} by the library, {reference} by the reference, {quick} by its quick check\n");
    text + &format!("  the next number of namespace {slot}: {next} by the library, {expected} by the reference")
}

/// A line of a record that is not all zero.
fn record_text(of: Records, slot: usize, record: &[u8]) -> Option<String> {
    let values =
        fields(&of).into_iter().map(|field| (field.value(record), field.name)).filter(|(value, _)| *value != 0);
    let values: Vec<String> = values.map(|(value, name)| format!("{name} {value}")).collect();
    (!values.is_empty()).then(|| format!("  {} {slot}: {}\n", of.name, values.join(", ")))
}
