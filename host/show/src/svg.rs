//! How a picture looks. What a shape or a colour says, a word says too.

use crate::layout::{in_one_line, Drawing, Rect, BADGE, CARD, LINE, MARK};
use crate::scene::{Card, CardLook, Mark, MarkKind, Scene, Space, SpaceLook};
use std::fmt::Write;

/// For the pictures on a page, or for one alone.
pub const STYLE: &str = "\
svg text { font-family: Arial, Helvetica, 'Liberation Sans', sans-serif; font-size: 12px; fill: #1b2430; }
svg .bold { font-weight: bold; }
svg .mono { font-size: 14px; font-family: Consolas, Menlo, 'DejaVu Sans Mono', 'Liberation Mono', monospace; }
svg .number { font-weight: bold; text-anchor: middle; }
svg .mark { font-weight: bold; font-size: 11px; fill: #fff; }
svg .small { font-size: 11px; }
svg .middle { text-anchor: middle; }
svg .pale { fill: #5a6675; }
svg .stroke { stroke: #5a6675; stroke-width: 1.5; fill: none; }
svg .thin { stroke: #1b2430; stroke-width: 1.2; fill: none; }
svg .bars { stroke: #1b2430; stroke-width: 3.5; fill: none; }
svg .space { stroke: #2f6f9f; stroke-width: 1.5; }
svg .even { fill: #eef4fa; }
svg .odd { fill: #fbfdff; }
svg .unborn { fill: #fff; stroke-dasharray: 7 5; }
svg .dead { fill: #d9dce0; stroke: #4d5560; stroke-dasharray: 2 3; stroke-width: 2; }
svg .freed { fill: none; stroke: #8a929c; stroke-dasharray: 2 5; }
svg .card { fill: #fff; stroke: #1b2430; stroke-width: 1.3; }
svg .stopped { fill: #fff4cf; stroke-width: 2; }
svg .ended { fill: #e3e5e8; stroke: #4d5560; stroke-dasharray: 5 3; }
svg .gone { fill: #fff; stroke: #8a929c; stroke-dasharray: 2 4; }
svg .badge { fill: #d3e4f5; stroke: none; }
svg .greyed { fill: #c9cdd2; stroke: none; }
svg .caller { fill: #17507f; }
svg .good { fill: #1d6b3a; }
svg .bad { fill: #9a2a2a; }
svg .other { fill: #6b4a9a; }
";

/// Text in HTML and SVG, whatever it has.
pub fn escaped(text: &str) -> String {
    text.chars().map(escaped_char).collect()
}

fn escaped_char(c: char) -> String {
    match c {
        '&' => "&amp;".to_string(),
        '<' => "&lt;".to_string(),
        '>' => "&gt;".to_string(),
        '"' => "&quot;".to_string(),
        '\'' => "&#39;".to_string(),
        c if c.is_control() => format!("\\x{:02x}", u32::from(c)),
        c => c.to_string(),
    }
}

/// Pixels that are enough for a text.
pub fn width_of(text: &str, size: i32) -> i32 {
    text.chars().count() as i32 * size * WIDE / 100
}

/// A letter's width in hundredths of its height, of text that is not all capitals.
const WIDE: i32 = 56;

/// A text that keeps to a width.
pub fn cut(text: &str, size: i32, width: i32) -> String {
    if width_of(text, size) <= width {
        return text.to_string();
    }
    let room = (width * 100 / (size * WIDE) - 1).max(0);
    text.chars().take(room as usize).chain(['…']).collect()
}

/// What is drawn so far.
#[derive(Default)]
pub struct Canvas(pub String);

impl Canvas {
    pub fn add(&mut self, text: &str) {
        self.0 += text;
        self.0.push('\n');
    }

    pub fn text(&mut self, x: i32, y: i32, class: &str, text: &str) {
        self.add(&format!("<text x=\"{x}\" y=\"{y}\" class=\"{class}\">{}</text>", escaped(text)));
    }

    pub fn rect(&mut self, rect: Rect, round: i32, class: &str) {
        let Rect { x, y, w, h } = rect;
        let place = format!("x=\"{x}\" y=\"{y}\" width=\"{w}\" height=\"{h}\"");
        self.add(&format!("<rect {place} rx=\"{round}\" class=\"{class}\"/>"));
    }

    pub fn path(&mut self, class: &str, path: &str) {
        self.add(&format!("<path class=\"{class}\" d=\"{path}\"/>"));
    }

    /// A scene at a place.
    pub fn scene(&mut self, scene: &Scene, drawing: &Drawing, x: i32, y: i32) {
        self.add(&format!("<g transform=\"translate({x} {y})\">"));
        drawing.spaces.iter().for_each(|&(i, rect)| self.space(&scene.spaces[i], rect));
        self.strokes(drawing);
        drawing.cards.iter().for_each(|&(i, rect)| self.card(&scene.cards[i], rect));
        self.add("</g>");
    }

    fn strokes(&mut self, drawing: &Drawing) {
        let mut path = String::new();
        for stroke in &drawing.strokes {
            let ((x, y), (to_x, to_y)) = (stroke.from, stroke.to);
            write!(path, "M{x} {y}L{to_x} {to_y}").expect("a string takes all");
        }
        self.path("stroke", &path);
    }

    fn space(&mut self, space: &Space, rect: Rect) {
        let class = match space.look {
            SpaceLook::Alive if space.level.is_multiple_of(2) => "even",
            SpaceLook::Alive => "odd",
            SpaceLook::Unborn => "unborn",
            SpaceLook::Dead => "dead",
            SpaceLook::Gone => "freed",
        };
        self.rect(rect, 4, &format!("space {class}"));
        let y = self.marks(&space.marks, rect, 4) + LINE;
        let (right, down) = if in_one_line(rect.w) { (160, 0) } else { (0, LINE) };
        self.text(rect.x + 10, y, "bold", &space.lines[0]);
        self.text(rect.x + 10 + right, y + down, "small pale", &space.lines[1]);
    }

    /// One strip for each mark, from the top, where the corners are round; tells where the last one ends.
    fn marks(&mut self, marks: &[Mark], rect: Rect, round: i32) -> i32 {
        let mut y = rect.y;
        for mark in marks {
            let class = match mark.kind {
                MarkKind::Caller => "caller",
                MarkKind::Good => "good",
                MarkKind::Bad => "bad",
                MarkKind::Other => "other",
            };
            let r = if y == rect.y { round } else { 0 };
            let (x, w) = (rect.x, rect.w);
            let top = format!("M{x} {}a{r} {r} 0 0 1 {r} -{r}h{}a{r} {r} 0 0 1 {r} {r}", y + r, w - 2 * r);
            self.path(class, &format!("{top}v{}h-{w}z", MARK - r));
            self.text(x + 8, y + MARK - 5, "mark", mark.word);
            y += MARK;
        }
        y
    }

    fn card(&mut self, card: &Card, rect: Rect) {
        let (class, round) = match card.look {
            CardLook::Running => ("", 8),
            CardLook::Stopped => ("stopped", 0),
            CardLook::Ended => ("ended", 8),
            CardLook::Gone => ("gone", 8),
        };
        self.add("<g>");
        self.add(&format!("<title>slot {}, numbers {}</title>", card.slot, escaped(&card.numbers)));
        self.rect(rect, round, &format!("card {class}"));
        let y = self.marks(&card.marks, rect, round);
        self.badge(card, rect.x + 6, y + 6);
        self.lines(card, rect.x + BADGE + 12, y + LINE + 2);
        if card.look == CardLook::Stopped {
            self.bars(rect.right() - 15, y + 7);
        }
        if card.pending {
            self.envelope(rect.right() - 20, rect.bottom() - 16);
        }
        self.add("</g>");
    }

    fn lines(&mut self, card: &Card, x: i32, y: i32) {
        let room = CARD - BADGE - 16;
        for (line, i) in card.lines.iter().zip(0..) {
            let (class, size) = if i == 0 { ("bold", 12) } else { ("small", 11) };
            self.text(x, y + LINE * i, class, &cut(line, size, room));
        }
    }

    /// The number of a process; an init's has a frame, an ended one's is crossed out. Its word stands below.
    fn badge(&mut self, card: &Card, x: i32, y: i32) {
        let (w, h) = (BADGE, 28);
        let quiet = matches!(card.look, CardLook::Ended | CardLook::Gone);
        self.rect(Rect { x, y, w, h }, 6, if quiet { "greyed" } else { "badge" });
        if card.init {
            self.rect(Rect { x: x + 2, y: y + 2, w: w - 4, h: h - 4 }, 4, "thin");
        }
        let number = card.number.to_string();
        let size = [18, 18, 16, 13, 11][number.len() - 1];
        let place = format!("x=\"{}\" y=\"{}\" style=\"font-size:{size}px\"", x + w / 2, y + h / 2 + size * 36 / 100);
        self.add(&format!("<text {place} class=\"number\">{number}</text>"));
        if quiet {
            self.path("thin", &format!("M{x} {y}l{w} {h}m{} 0l{w} {}", -w, -h));
        }
        self.text(x + w / 2, y + h + 12, "small middle", card.role());
    }

    /// Two bars: it is stopped.
    fn bars(&mut self, x: i32, y: i32) {
        self.path("bars", &format!("M{x} {y}v11m6 0v-11"));
    }

    fn envelope(&mut self, x: i32, y: i32) {
        self.path("thin", &format!("M{x} {y}h14v10h-14zl7 6l7 -6"));
    }
}
