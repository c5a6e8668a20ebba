//! Nothing is left out of a picture, nothing stands outside, and nothing overlaps.

mod common;

use lampfunnel::{NamespaceSlot, NAMESPACES, PROCESSES};
use show::layout::{Drawing, Rect};
use show::play::steps;
use show::scene::Scene;
use show::svg::width_of;
use show::words::Names;

const WIDTHS: [i32; 3] = [0, 440, 940];

#[test]
fn every_step_of_a_deep_chain() {
    let deepest = steps(&common::deep()).flat_map(|step| step.after.namespaces().map(|(_, n)| n.level).max()).max();
    assert_eq!(deepest, Some(32));
    placed(&common::deep());
}

#[test]
fn every_step_of_full_tables() {
    for script in common::full_tables() {
        let table = steps(&script).last().expect("there are steps").after;
        assert_eq!((table.processes().count(), table.namespaces().count()), (PROCESSES, NAMESPACES));
        placed(&script);
    }
}

#[test]
fn every_step_of_many_scripts() {
    let pictures: usize = common::many(60).iter().map(|script| placed(script)).sum();
    assert!(pictures > 800, "{pictures} steps were drawn");
}

/// Draws every step of a script, and tells how many there are.
fn placed(script: &[u8]) -> usize {
    let scenes = steps(script).map(|step| Scene::of(&step, &Names::default()));
    scenes.map(|scene| WIDTHS.iter().for_each(|&width| placed_at(&scene, width))).count()
}

fn placed_at(scene: &Scene, width: i32) {
    let drawing = Drawing::of(scene, width);
    let indices = |places: &[(usize, Rect)]| {
        let mut all: Vec<usize> = places.iter().map(|(i, _)| *i).collect();
        all.sort();
        all
    };
    assert_eq!(indices(&drawing.spaces), Vec::from_iter(0..scene.spaces.len()));
    assert_eq!(indices(&drawing.cards), Vec::from_iter(0..scene.cards.len()));
    let all = Rect { x: 0, y: 0, w: drawing.w, h: drawing.h };
    drawing.spaces.iter().chain(&drawing.cards).for_each(|(_, rect)| assert!(inside(*rect, all)));
    for stroke in &drawing.strokes {
        let ((x, y), (to_x, to_y)) = (stroke.from, stroke.to);
        assert!(inside(Rect { x, y, w: to_x - x, h: to_y - y }, all) && (x == to_x || y == to_y));
    }
    boxes_nest(scene, &drawing);
    cards_stand_apart(scene, &drawing);
    words_fit(scene, &drawing);
}

fn inside(inner: Rect, outer: Rect) -> bool {
    outer.x <= inner.x && outer.y <= inner.y && inner.right() <= outer.right() && inner.bottom() <= outer.bottom()
}

fn apart(one: Rect, other: Rect) -> bool {
    one.right() < other.x || other.right() < one.x || one.bottom() < other.y || other.bottom() < one.y
}

/// Two boxes are apart, unless one namespace lies below the other: then its box is inside.
fn boxes_nest(scene: &Scene, drawing: &Drawing) {
    for (i, rect) in &drawing.spaces {
        let below = |slot| lies_below(scene, scene.spaces[*i].slot, slot);
        let good = |(j, other): &(usize, Rect)| match below(scene.spaces[*j].slot) {
            true => inside(*rect, *other),
            false => apart(*rect, *other) || lies_below(scene, scene.spaces[*j].slot, scene.spaces[*i].slot),
        };
        assert!(drawing.spaces.iter().all(good));
    }
}

/// Whether a namespace lies below another, or is that one.
fn lies_below(scene: &Scene, lower: NamespaceSlot, upper: NamespaceSlot) -> bool {
    let parent = |slot: &NamespaceSlot| scene.spaces.iter().find(|space| space.slot == *slot)?.parent;
    std::iter::successors(Some(lower), parent).any(|slot| slot == upper)
}

/// A card is in the box of its namespace and of those above, and apart from all other boxes and cards.
fn cards_stand_apart(scene: &Scene, drawing: &Drawing) {
    for (i, rect) in &drawing.cards {
        let own = scene.cards[*i].own;
        let good = |(j, space): &(usize, Rect)| match lies_below(scene, own, scene.spaces[*j].slot) {
            true => inside(*rect, *space),
            false => apart(*rect, *space),
        };
        assert!(drawing.spaces.iter().all(good));
        assert!(drawing.cards.iter().all(|(j, other)| i == j || apart(*rect, *other)));
    }
}

/// The words of boxes and marks are not cut, so they have to fit.
fn words_fit(scene: &Scene, drawing: &Drawing) {
    let marks = |marks: &[show::scene::Mark], rect: Rect| marks.iter().all(|m| width_of(m.word, 11) <= rect.w - 16);
    for &(i, rect) in &drawing.spaces {
        let space = &scene.spaces[i];
        let lines = [(&space.lines[0], 12), (&space.lines[1], 11)];
        assert!(lines.iter().all(|(line, size)| width_of(line, *size) <= rect.w - 20) && marks(&space.marks, rect));
    }
    assert!(drawing.cards.iter().all(|&(i, rect)| marks(&scene.cards[i].marks, rect)));
}
