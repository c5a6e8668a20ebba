//! One picture of a whole short story: a panel for each step.

use crate::args::Options;
use crate::layout::{Drawing, Rect, LINE, PAIR};
use crate::play::{lines, steps, Step};
use crate::scene::Scene;
use crate::svg::{cut, escaped, width_of, Canvas, STYLE};
use crate::words;

/// More would not be looked at.
pub const MOST: usize = 24;

const MARGIN: i32 = 14;
const TITLE: i32 = 76;

const LEGEND: [&str; 2] = [
    "A box is a PID namespace, a card is a process; the square has its number in that namespace. A process sees what is",
    "in its box, and nobody outside. A child hangs from its parent. Strips mark the caller, and what the step changed.",
];

/// A step, drawn.
struct Panel {
    number: usize,
    asked: String,
    /// Lines, each with its class.
    words: Vec<(&'static str, String)>,
    scene: Scene,
    drawing: Drawing,
}

impl Panel {
    fn of(step: &Step, options: &Options) -> Panel {
        let scene = Scene::of(step, &options.names);
        let drawing = Drawing::of(&scene, PAIR);
        let asked = format!("{} → {}", words::line(step), step.answer);
        let words = words_of(step, options, drawing.w.max(PAIR));
        Panel { number: step.number, asked, words, scene, drawing }
    }

    /// Down to the drawing.
    fn head(&self) -> i32 {
        38 + self.words.len() as i32 * LINE
    }

    fn draw(&self, canvas: &mut Canvas, x: i32, y: i32, head: i32) {
        canvas.rect(Rect { x, y: y + 2, w: 64, h: 22 }, 11, "caller");
        canvas.text(x + 32, y + 17, "mark middle", &format!("step {}", self.number));
        canvas.text(x + 72, y + 18, "mono bold", &cut(&self.asked, 14, self.drawing.w.max(PAIR) - 72));
        for ((class, line), i) in self.words.iter().zip(0..) {
            canvas.text(x, y + 42 + i * LINE, class, line);
        }
        canvas.scene(&self.scene, &self.drawing, x, y + head);
    }
}

/// What stands over a drawing: the words of the story if there are some, and those of the call.
fn words_of(step: &Step, options: &Options, width: i32) -> Vec<(&'static str, String)> {
    let (question, meaning) = (words::question(step, &options.names), words::meaning(step));
    let (story, told) = match options.says.get(&step.number) {
        Some(says) => (says.clone(), format!("answer {}: {meaning}", step.answer)),
        None => (question, meaning),
    };
    let two = |class, size, text: &str| wrapped(text, size, width).into_iter().take(2).map(move |line| (class, line));
    // Bold letters are wider.
    two("bold", 14, &story).chain(two("", 12, &told)).collect()
}

/// A text in lines that keep to a width; a word that does not is cut.
pub fn wrapped(text: &str, size: i32, width: i32) -> Vec<String> {
    text.split(' ').fold(Vec::new(), |mut lines: Vec<String>, word| {
        match lines.last_mut().filter(|line| width_of(&format!("{line} {word}"), size) <= width) {
            Some(line) => *line = format!("{line} {word}"),
            None => lines.push(cut(word, size, width)),
        }
        lines
    })
}

/// The picture, two panels side by side.
pub fn strip(script: &[u8], options: &Options) -> String {
    let picked = steps(script).filter(|step| options.picked.has(step.number));
    let panels: Vec<Panel> = picked.take(MOST).map(|step| Panel::of(&step, options)).collect();
    let column = panels.iter().map(|panel| panel.drawing.w).max().unwrap_or(0).max(PAIR);
    let mut canvas = Canvas::default();
    let mut y = MARGIN + TITLE;
    for pair in panels.chunks(2) {
        y += row(&mut canvas, pair, y, column) + 2 * MARGIN;
    }
    let columns = panels.len().min(2) as i32;
    let width = (MARGIN + columns * (column + MARGIN)).max(3 * MARGIN + 2 * PAIR);
    let note = note(lines(script).count(), panels.len());
    framed(&canvas.0, (width, y), &[options.title(), &note])
}

/// Panels side by side, with their drawings at one height; tells how high they are.
fn row(canvas: &mut Canvas, pair: &[Panel], y: i32, column: i32) -> i32 {
    let head = pair.iter().map(Panel::head).max().unwrap_or(0);
    for (panel, i) in pair.iter().zip(0..) {
        panel.draw(canvas, MARGIN + i * (column + MARGIN), y, head);
    }
    head + pair.iter().map(|panel| panel.drawing.h).max().unwrap_or(0)
}

fn note(lines: usize, shown: usize) -> String {
    if lines == shown {
        return String::new();
    }
    format!("{shown} of {lines} steps")
}

fn framed(content: &str, (w, h): (i32, i32), [title, note]: &[&str; 2]) -> String {
    let mut canvas = Canvas::default();
    let size = format!("width=\"{w}\" height=\"{h}\" viewBox=\"0 0 {w} {h}\"");
    canvas.add(&format!("<svg xmlns=\"http://www.w3.org/2000/svg\" {size} role=\"img\">"));
    canvas.add(&format!("<title>{}</title>\n<style>\n{STYLE}</style>", escaped(title)));
    canvas.add(&format!("<rect width=\"{w}\" height=\"{h}\" rx=\"6\" fill=\"#fff\"/>"));
    canvas.add(&format!(
        "<text x=\"{MARGIN}\" y=\"34\" class=\"bold\" style=\"font-size:19px\">{}</text>",
        escaped(&cut(title, 19, w - 2 * MARGIN))
    ));
    canvas.text(w - MARGIN - width_of(note, 12), 34, "pale", note);
    canvas.text(MARGIN, 56, "", LEGEND[0]);
    canvas.text(MARGIN, 72, "", LEGEND[1]);
    canvas.add(content);
    canvas.add("</svg>");
    canvas.0
}
