//! A picture marks what its step changed, all of it and nothing else, and lines lead from parents to children.

mod common;

use lampfunnel::{Life, Slot};
use show::layout::{Drawing, Rect};
use show::play::{steps, Answer, Step};
use show::scene::{Card, CardLook, Mark, MarkKind, Scene, Space, SpaceLook};
use show::words::Names;

fn scenes(script: &[u8]) -> impl Iterator<Item = (Step<'_>, Scene)> {
    steps(script).map(|step| {
        let scene = Scene::of(&step, &Names::default());
        (step, scene)
    })
}

/// The words of the marks that are about a change.
fn changed(marks: &[Mark]) -> Vec<&str> {
    marks.iter().filter(|mark| mark.kind != MarkKind::Caller).map(|mark| mark.word).collect()
}

fn caller(marks: &[Mark]) -> bool {
    marks.iter().any(|mark| mark.kind == MarkKind::Caller)
}

#[test]
fn the_story() {
    let all: Vec<Scene> = scenes(common::STORY).map(|(_, scene)| scene).collect();
    let card = |step: usize, slot| {
        let card = all[step - 1].card(Slot(slot)).expect("it is there");
        (card.number, card.look, changed(&card.marks), caller(&card.marks))
    };
    let space = |step: usize, slot: usize| {
        let space = &all[step - 1].spaces[slot];
        (space.look, changed(&space.marks), caller(&space.marks))
    };
    assert_eq!(card(5, 5), (2, CardLook::Running, vec!["new"], false));
    assert_eq!(card(6, 5), (2, CardLook::Ended, vec!["ended now"], true));
    assert_eq!(card(7, 5), (2, CardLook::Gone, vec!["removed"], false));
    assert!(all[7].card(Slot(5)).is_none());
    assert_eq!(card(8, 4), (1, CardLook::Running, vec![], true));
    assert_eq!(card(13, 4), (1, CardLook::Ended, vec!["ended now"], false));
    assert_eq!(space(4, 2), (SpaceLook::Alive, vec!["new"], false));
    assert_eq!(space(8, 2), (SpaceLook::Alive, vec![], true));
    assert_eq!(space(13, 2), (SpaceLook::Dead, vec!["dead now"], false));
}

#[test]
fn marks_are_what_changed() {
    let marked: usize =
        common::many(300).iter().flat_map(|script| scenes(script)).map(|(step, scene)| marks(&step, &scene)).sum();
    assert!(marked > 2000, "{marked} marks");
}

/// Holds the marks of a scene against the two tables, and tells how many there are.
fn marks(step: &Step, scene: &Scene) -> usize {
    let cards = scene.cards.iter().map(|card| card_marks(step, card)).sum::<usize>();
    let spaces = scene.spaces.iter().map(|space| space_marks(step, space)).sum::<usize>();
    let gone = |slot: &Slot| step.after.process(*slot).is_none();
    let there = step.after.processes().count() + step.before.processes().filter(|(slot, _)| gone(slot)).count();
    assert_eq!(scene.cards.len(), there);
    assert!(cards + spaces == 0 || matches!(step.answer, Answer::Told(_)));
    cards + spaces
}

fn card_marks(step: &Step, card: &Card) -> usize {
    let (before, after) = (step.before.process(card.slot), step.after.process(card.slot));
    let marked = changed(&card.marks).len();
    assert_eq!(marked > 0, before != after);
    assert_eq!(card.look == CardLook::Gone, after.is_none());
    assert_eq!(caller(&card.marks), step.asked.is_some_and(|(slot, _)| slot == card.slot));
    marked
}

fn space_marks(step: &Step, space: &Space) -> usize {
    let life = |table: &lampfunnel::Table| table.namespace(space.slot).map(|namespace| namespace.life);
    let (before, after) = (life(&step.before), life(&step.after));
    let marked = changed(&space.marks).len();
    assert_eq!(marked > 0, before != after);
    let look = match after {
        None => SpaceLook::Gone,
        Some(Life::Unborn) => SpaceLook::Unborn,
        Some(Life::Alive(_)) => SpaceLook::Alive,
        Some(Life::Dead) => SpaceLook::Dead,
    };
    assert_eq!(space.look, look);
    let own = step.asked.and_then(|(slot, _)| step.before.process(slot)).map(|process| process.own);
    assert_eq!(caller(&space.marks), own == Some(space.slot));
    marked
}

#[test]
fn lines_lead_from_parents() {
    let lines: usize = common::many(60).iter().flat_map(|script| scenes(script)).map(|(_, scene)| lines(&scene)).sum();
    assert!(lines > 2000, "{lines} lines");
}

/// Every child is reached by a line that starts at its parent, or its words name the parent.
fn lines(scene: &Scene) -> usize {
    let drawing = Drawing::of(scene, 940);
    let place = |slot: Slot| drawing.cards.iter().find(|(i, _)| scene.cards[*i].slot == slot).expect("it is there").1;
    let reached =
        |rect: Rect| drawing.strokes.iter().any(|s| s.to.1 == rect.y && rect.x < s.to.0 && s.to.0 < rect.right());
    let left = |rect: Rect| {
        drawing.strokes.iter().any(|s| s.from.1 == rect.bottom() && rect.x < s.from.0 && s.from.0 < rect.right())
    };
    let mut count = 0;
    for (i, rect) in &drawing.cards {
        let card = &scene.cards[*i];
        let Some(parent) = card.parent else { continue };
        let (_, around) = drawing.spaces.iter().find(|(i, _)| scene.spaces[*i].slot == card.own).expect("it is there");
        let named = card.lines.contains(&format!("child of slot {parent}"));
        let beside = scene.card(parent).is_some_and(|parent| parent.own == card.own);
        // A line to a box leads to its init.
        let led = left(place(parent)) && if beside { reached(*rect) } else { card.number == 1 && reached(*around) };
        assert!(named != led);
        count += usize::from(!named);
    }
    count
}
