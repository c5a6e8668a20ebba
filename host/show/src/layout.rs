//! Where everything in a picture stands. A namespace's box holds its own processes as a tree, and the boxes of the
//! namespaces below it hang from the process that their init is a child of. What does not fit beside goes below.

use crate::scene::{Card, Scene, Space};

#[derive(Clone, Copy, PartialEq, Eq, Debug)]
pub struct Rect {
    pub x: i32,
    pub y: i32,
    pub w: i32,
    pub h: i32,
}

impl Rect {
    pub fn right(&self) -> i32 {
        self.x + self.w
    }

    pub fn bottom(&self) -> i32 {
        self.y + self.h
    }

    fn moved(self, x: i32, y: i32) -> Rect {
        Rect { x: self.x + x, y: self.y + y, ..self }
    }
}

/// A stroke, from left to right or from the top down.
#[derive(Clone, Copy, PartialEq, Eq, Debug)]
pub struct Stroke {
    pub from: (i32, i32),
    pub to: (i32, i32),
}

/// Places for the namespaces and processes of a scene, each by its index there.
#[derive(Clone, Default)]
pub struct Drawing {
    pub w: i32,
    pub h: i32,
    pub spaces: Vec<(usize, Rect)>,
    pub cards: Vec<(usize, Rect)>,
    pub strokes: Vec<Stroke>,
}

pub const CARD: i32 = 160;
pub const BADGE: i32 = 38;
pub const LINE: i32 = 15;
pub const MARK: i32 = 17;
const EDGE: i32 = 7;
const PAD: i32 = 10;
const GAP: i32 = 10;
/// From a card to what hangs from it.
const DROP: i32 = 14;
/// Where a stroke meets a card or a box.
const ENTRY: i32 = 20;
const GUTTER: i32 = 14;
/// A box that has one column of cards, and one that has two such boxes side by side.
const NARROW: i32 = CARD + GUTTER + 2 * PAD;
pub const PAIR: i32 = 2 * NARROW + GAP + GUTTER + 2 * PAD;

impl Card {
    fn height(&self) -> i32 {
        let badge = if self.role().is_empty() { 30 } else { 38 };
        let (marks, lines) = (self.marks.len() as i32, self.lines.len() as i32);
        marks * MARK + 2 * EDGE + badge.max(lines * LINE)
    }
}

impl Space {
    /// Down to its first card, in a box of some width.
    fn head(&self, width: i32) -> i32 {
        let lines = if in_one_line(width) { 1 } else { 2 };
        self.marks.len() as i32 * MARK + lines * LINE + 8
    }
}

/// Whether a box has room for its words side by side.
pub fn in_one_line(width: i32) -> bool {
    width >= 2 * NARROW
}

impl Drawing {
    /// Places a scene in some width, or in more where it needs that.
    pub fn of(scene: &Scene, width: i32) -> Drawing {
        let places = Places { scene };
        let outermost = (0..scene.spaces.len()).filter(|&i| scene.spaces[i].parent.is_none());
        outermost.map(|i| places.space(i, width)).fold(Drawing::default(), Drawing::below)
    }

    fn put(&mut self, other: Drawing, x: i32, y: i32) {
        self.w = self.w.max(x + other.w);
        self.h = self.h.max(y + other.h);
        self.spaces.extend(other.spaces.into_iter().map(|(i, rect)| (i, rect.moved(x, y))));
        self.cards.extend(other.cards.into_iter().map(|(i, rect)| (i, rect.moved(x, y))));
        let moved = |(px, py): (i32, i32)| (px + x, py + y);
        self.strokes.extend(other.strokes.iter().map(|s| Stroke { from: moved(s.from), to: moved(s.to) }));
    }

    fn below(mut self, other: Drawing) -> Drawing {
        let y = if self.h == 0 { 0 } else { self.h + GAP };
        self.put(other, 0, y);
        self
    }

    fn beside(mut self, other: Drawing) -> Drawing {
        let x = if self.w == 0 { 0 } else { self.w + GAP };
        self.put(other, x, 0);
        self
    }
}

struct Places<'a> {
    scene: &'a Scene,
}

impl Places<'_> {
    /// A box: its words, then its processes that have no parent in it, then boxes that hang from nobody.
    fn space(&self, i: usize, width: i32) -> Drawing {
        let space = &self.scene.spaces[i];
        let inner = width - 2 * PAD;
        let roots = self.roots(space).into_iter().map(|i| self.tree(i, inner)).collect();
        let rows = packed(roots, inner).into_iter().chain(packed(self.boxes(space, None, inner), inner));
        let content = rows.map(|row| row.into_iter().fold(Drawing::default(), Drawing::beside));
        let content = content.fold(Drawing::default(), Drawing::below);
        let mut all = Drawing { w: NARROW.max(content.w + 2 * PAD), ..Drawing::default() };
        all.put(content, PAD, space.head(all.w));
        all.h += if all.cards.is_empty() { 0 } else { PAD };
        all.spaces.insert(0, (i, Rect { x: 0, y: 0, w: all.w, h: all.h }));
        all
    }

    /// The init first.
    fn roots(&self, space: &Space) -> Vec<usize> {
        let cards = &self.scene.cards;
        let inside = |card: &Card| card.own == space.slot;
        let has_parent = |card: &Card| card.parent.and_then(|slot| self.scene.card(slot)).is_some_and(inside);
        let mut roots: Vec<usize> = (0..cards.len()).filter(|&i| inside(&cards[i]) && !has_parent(&cards[i])).collect();
        roots.sort_by_key(|&i| !cards[i].init);
        roots
    }

    /// A card, and below it its children in the same box, then the boxes that hang from it.
    fn tree(&self, i: usize, width: i32) -> Drawing {
        let inner = width - GUTTER;
        let card = &self.scene.cards[i];
        let mut all = Drawing { w: CARD, h: card.height(), ..Drawing::default() };
        all.cards.push((i, Rect { x: 0, y: 0, w: all.w, h: all.h }));
        let children = self.children(i).into_iter().map(|i| self.tree(i, inner)).collect();
        let boxes = self.around(card).map_or_else(Vec::new, |space| self.boxes(space, Some(card), inner));
        hung(all, packed(children, inner).into_iter().chain(packed(boxes, inner)).collect())
    }

    /// The children of a card in its own box.
    fn children(&self, i: usize) -> Vec<usize> {
        let cards = &self.scene.cards;
        let child = |&c: &usize| cards[c].parent == Some(cards[i].slot) && cards[c].own == cards[i].own;
        (0..cards.len()).filter(child).collect()
    }

    fn hanging_from(&self, i: usize) -> Vec<usize> {
        let card = &self.scene.cards[i];
        self.around(card).map_or_else(Vec::new, |space| self.hanging(space, Some(card)))
    }

    fn around(&self, card: &Card) -> Option<&Space> {
        self.scene.spaces.iter().find(|space| space.slot == card.own)
    }

    /// The boxes in a box that hang from a card, or from nobody; as many side by side as there is room for.
    fn boxes(&self, around: &Space, owner: Option<&Card>, width: i32) -> Vec<Drawing> {
        let meant = self.hanging(around, owner);
        // In the outermost box one alone leaves room for a second, so that it does not move when that comes.
        let alone = around.level == 0 && meant.len() == 1;
        let (width, part) = if alone { (width - NARROW - GAP, 2) } else { (width, 1) };
        let rows = grouped(meant.into_iter().map(|i| (i, self.least_of_space(i))), width);
        rows.iter().flat_map(|row| self.row(row, width, part)).collect()
    }

    fn hanging(&self, around: &Space, owner: Option<&Card>) -> Vec<usize> {
        let spaces = &self.scene.spaces;
        let hangs = |space: &Space| space.parent == Some(around.slot) && space.owner == owner.map(|card| card.slot);
        (0..spaces.len()).filter(|&i| hangs(&spaces[i])).collect()
    }

    /// Boxes side by side, each with the width that it needs; a part of what is left goes to those with more in them.
    fn row(&self, row: &[(usize, i32)], width: i32, part: i32) -> Vec<Drawing> {
        let needed: i32 = row.iter().map(|(_, least)| least + GAP).sum();
        let spare = (width + GAP - needed).max(0) / part;
        let weight = |i: usize| self.weight(&self.scene.spaces[i]);
        let total: i32 = row.iter().map(|&(i, _)| weight(i)).sum();
        row.iter().map(|&(i, least)| self.space(i, least + spare * weight(i) / total)).collect()
    }

    /// How many namespaces and processes a box has.
    fn weight(&self, space: &Space) -> i32 {
        let members = self.scene.cards.iter().filter(|card| card.own == space.slot).count() as i32;
        let below = self.scene.spaces.iter().filter(|inner| inner.parent == Some(space.slot));
        1 + members + below.map(|inner| self.weight(inner)).sum::<i32>()
    }

    /// The width that a box needs when all in it stands below one another.
    fn least_of_space(&self, i: usize) -> i32 {
        let space = &self.scene.spaces[i];
        let roots = self.roots(space).into_iter().map(|i| self.least_of_tree(i));
        let boxes = self.hanging(space, None).into_iter().map(|i| self.least_of_space(i));
        NARROW.max(2 * PAD + roots.chain(boxes).max().unwrap_or(0))
    }

    fn least_of_tree(&self, i: usize) -> i32 {
        let children = self.children(i).into_iter().map(|i| self.least_of_tree(i));
        let boxes = self.hanging_from(i).into_iter().map(|i| self.least_of_space(i));
        CARD.max(GUTTER + children.chain(boxes).max().unwrap_or(0))
    }
}

/// Rows of what fits side by side, each thing with its width; a thing that fits nowhere has a row for itself.
fn grouped<T>(things: impl Iterator<Item = (T, i32)>, width: i32) -> Vec<Vec<(T, i32)>> {
    let mut rows: Vec<Vec<(T, i32)>> = Vec::new();
    let mut used = 0;
    for (thing, w) in things {
        used += w + GAP;
        if rows.is_empty() || used - GAP > width {
            used = w + GAP;
            rows.push(Vec::new());
        }
        rows.last_mut().expect("there is a row").push((thing, w));
    }
    rows
}

fn packed(drawings: Vec<Drawing>, width: i32) -> Vec<Vec<Drawing>> {
    let sized = drawings.into_iter().map(|drawing| (drawing.w, drawing)).map(|(w, drawing)| (drawing, w));
    grouped(sized, width).into_iter().map(|row| row.into_iter().map(|(drawing, _)| drawing).collect()).collect()
}

/// Rows under a card, with strokes from it to each. One row needs no way past the others.
fn hung(mut all: Drawing, rows: Vec<Vec<Drawing>>) -> Drawing {
    let indent = if rows.len() > 1 { GUTTER } else { 0 };
    let trunk = if rows.len() > 1 { GUTTER / 2 } else { ENTRY };
    let top = all.h;
    for row in rows {
        let lane = all.h + DROP / 2;
        all.strokes.push(Stroke { from: (trunk, top), to: (trunk, lane) });
        hung_row(&mut all, row, (indent, trunk, lane));
    }
    all
}

fn hung_row(all: &mut Drawing, row: Vec<Drawing>, (indent, trunk, lane): (i32, i32, i32)) {
    let mut x = indent;
    for drawing in row {
        let (entry, w) = (x + ENTRY, drawing.w);
        all.strokes.push(Stroke { from: (trunk, lane), to: (entry, lane) });
        all.strokes.push(Stroke { from: (entry, lane), to: (entry, lane + DROP / 2) });
        all.put(drawing, x, lane + DROP / 2);
        x += w + GAP;
    }
}
