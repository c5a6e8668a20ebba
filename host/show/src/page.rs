//! One page that needs nothing else: no network, and no script of its own to be read.

use crate::args::Options;
use crate::layout::Drawing;
use crate::play::{lines, steps, Step};
use crate::scene::Scene;
use crate::svg::{escaped, Canvas, STYLE};
use crate::{changes, words};

/// So many steps are drawn on a page at most.
pub const MOST: usize = 200;

/// The width that a picture is laid out for.
const WIDTH: i32 = 940;

const LEGEND: [&str; 5] = [
    "A box is a PID namespace (ns), inside the box of its parent. A solid edge: it is alive. Dashed: unborn, it has had \
     no process yet. Grey with a dotted edge: dead, its init has ended.",
    "A card is a process, in the box of its own namespace. The square has its number there, which is how the processes \
     in that box name it; a frame in the square marks the init. Outside are its numbers in the boxes around, from the \
     outermost on. The slot is how the host names it.",
    "Two bars and sharp corners: stopped. A crossed number: it has ended, and stays until its parent waits for it. An \
     envelope: signals are pending.",
    "Lines lead from a parent down to its children.",
    "Strips mark the caller of the step, the box that it sees, and what the step changed. What it removed is shown for \
     the last time, with a dotted edge.",
];

pub fn page(script: &[u8], options: &Options) -> String {
    let title = escaped(options.title());
    let picked = || steps(script).filter(|step| options.picked.has(step.number));
    let sections: String = picked().take(MOST).map(|step| section(&step, options)).collect();
    let index: String = picked().take(MOST).map(|step| index_row(&step)).collect();
    let legend: String = LEGEND.iter().map(|item| format!("<li>{item}</li>\n")).collect();
    format!(
        "<!DOCTYPE html>\n<html lang=\"en\">\n<head>\n<meta charset=\"utf-8\">\n\
         <meta name=\"viewport\" content=\"width=device-width, initial-scale=1\">\n<title>{title}</title>\n\
         <style>\n{}{STYLE}</style>\n</head>\n<body>\n<h1>{title}</h1>\n<ul class=\"legend\">\n{legend}</ul>\n{}{TOOLS}\
         <details><summary>All questions and answers</summary>\n<table>\n{index}</table>\n</details>\n\
         <main>\n{sections}</main>\n<script>\n{}</script>\n</body>\n</html>\n",
        include_str!("page.css"),
        note(lines(script).count(), picked().count()),
        include_str!("page.js"),
    )
}

const TOOLS: &str = "<div class=\"tools\" hidden><button class=\"back\">← previous</button>\
    <button class=\"on\">next →</button><button class=\"all\">all steps</button> \
    <output>or the arrow keys</output></div>\n";

/// What the page leaves out.
fn note(lines: usize, picked: usize) -> String {
    match picked {
        _ if picked > MOST => format!(
            "<p class=\"note\">The script has {lines} lines, {picked} of them are asked for, and a page has at most \
             {MOST} steps: these are the first. <code>--at {}-{}</code> shows others.</p>\n",
            MOST + 1,
            2 * MOST
        ),
        0 => "<p class=\"note\">There is no step to show.</p>\n".to_string(),
        _ if picked < lines => format!("<p class=\"note\">{picked} of the script's {lines} lines are shown.</p>\n"),
        _ => String::new(),
    }
}

fn index_row(step: &Step) -> String {
    let (line, answer, meaning) = (escaped(&words::line(step)), &step.answer, escaped(&words::meaning(step)));
    format!(
        "<tr><td><a href=\"#step-{n}\">{n}</a></td><td><code>{line}</code></td><td><code>{answer}</code></td>\
         <td>{meaning}</td></tr>\n",
        n = step.number
    )
}

fn section(step: &Step, options: &Options) -> String {
    let number = step.number;
    let changes: String =
        changes::told(step, &options.names).iter().map(|change| format!("<li>{}</li>\n", escaped(change))).collect();
    let says = options.says.get(&number).map_or(String::new(), |says| format!("<p><b>{}</b></p>\n", escaped(says)));
    format!(
        "<section class=\"step\" id=\"step-{number}\">\n<div>\n\
         <h2><span class=\"pill\">step {number}</span> <code>{}</code></h2>\n{says}<p>{}</p>\n\
         <p><b>answer <code>{}</code></b><br>{}</p>\n<ul class=\"changes\">\n{changes}</ul>\n\
         <details><summary>the table as a tree</summary><pre>{}</pre></details>\n</div>\n\
         <figure>\n{}</figure>\n</section>\n",
        escaped(&words::line(step)),
        escaped(&words::question(step, &options.names)),
        step.answer,
        escaped(&words::meaning(step)),
        tree(step),
        picture(step, options),
    )
}

fn tree(step: &Step) -> String {
    format!("{:?}", step.after).lines().map(|line| escaped(line) + "\n").collect()
}

fn picture(step: &Step, options: &Options) -> String {
    let scene = Scene::of(step, &options.names);
    let drawing = Drawing::of(&scene, WIDTH);
    let (w, h) = (drawing.w + 4, drawing.h + 4);
    let mut canvas = Canvas::default();
    let size = format!("width=\"{w}\" height=\"{h}\" viewBox=\"0 0 {w} {h}\"");
    canvas.add(&format!("<svg {size} role=\"img\" aria-label=\"the namespaces after step {}\">", step.number));
    canvas.scene(&scene, &drawing, 2, 2);
    canvas.add("</svg>");
    canvas.0
}
