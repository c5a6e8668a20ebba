//! What the program is asked for.

use crate::words::Names;
use lampfunnel::{Slot, PROCESSES};
use std::collections::BTreeMap;
use std::ops::RangeInclusive;

pub const USAGE: &str = "usage: show [--steps] [OPTION]... SCRIPT
       show --page [OPTION]... SCRIPT > page.html
       show --svg [OPTION]... SCRIPT > picture.svg";

pub const HELP: &str =
    "Plays a script of calls and shows the questions, the answers and the processes in their namespaces.

  (nothing)         text: all questions and answers, then the tree at the end
  --steps           text: the tree after each line
  --page            one HTML page with a picture for each step
  --svg             one picture with a panel for each step

  --at 3,5,8-12     shows these steps alone (a step is a line of the script, from 1)
  --name 3=judge    a name for the process at a slot; may be given several times
  --say 8=TEXT      words of the story for a step, on a page or a picture; may be given several times
  --title TEXT      a title, in place of the file's name
  SCRIPT            a file, or - for standard input";

#[derive(Clone, Copy, PartialEq, Eq, Debug)]
pub enum Form {
    End,
    Steps,
    Page,
    Svg,
}

/// The steps that are to be shown: all where nothing is said.
#[derive(Clone, PartialEq, Eq, Default, Debug)]
pub struct Picked(Vec<RangeInclusive<usize>>);

impl Picked {
    pub fn has(&self, step: usize) -> bool {
        self.0.is_empty() || self.0.iter().any(|range| range.contains(&step))
    }
}

#[derive(Clone, PartialEq, Eq, Debug)]
pub struct Options {
    pub form: Form,
    pub picked: Picked,
    pub names: Names,
    pub says: BTreeMap<usize, String>,
    pub title: Option<String>,
    pub script: String,
}

impl Options {
    pub fn title(&self) -> &str {
        let source = if self.script == "-" { "standard input" } else { &self.script };
        self.title.as_deref().unwrap_or(source)
    }
}

#[derive(Clone, PartialEq, Eq, Debug)]
pub enum Asked {
    Help,
    Show(Options),
}

/// What the words of a command line ask for, or what is wrong with them.
pub fn read(words: &[String]) -> Result<Asked, String> {
    let mut options = Options {
        form: Form::End,
        picked: Picked::default(),
        names: Names::default(),
        says: BTreeMap::new(),
        title: None,
        script: String::new(),
    };
    let mut words = words.iter().map(String::as_str);
    while let Some(word) = words.next() {
        match word {
            "--help" | "-h" => return Ok(Asked::Help),
            "--steps" | "--page" | "--svg" => set_form(&mut options, word)?,
            "--at" => options.picked = picked(value(word, words.next())?)?,
            "--name" => name(&mut options.names, value(word, words.next())?)?,
            "--say" => say(&mut options.says, value(word, words.next())?)?,
            "--title" => options.title = Some(value(word, words.next())?.to_string()),
            _ if word.starts_with('-') && word != "-" => return Err(format!("there is no option {word}")),
            _ if !options.script.is_empty() => return Err(format!("one script at a time: {word} is a second one")),
            _ => options.script = word.to_string(),
        }
    }
    if options.script.is_empty() {
        return Err("no script is named".to_string());
    }
    Ok(Asked::Show(options))
}

fn set_form(options: &mut Options, word: &str) -> Result<(), String> {
    if options.form != Form::End {
        return Err(format!("{word} is a second form"));
    }
    options.form = match word {
        "--steps" => Form::Steps,
        "--page" => Form::Page,
        _ => Form::Svg,
    };
    Ok(())
}

fn value<'a>(option: &str, word: Option<&'a str>) -> Result<&'a str, String> {
    word.ok_or_else(|| format!("{option} lacks its value"))
}

fn picked(text: &str) -> Result<Picked, String> {
    text.split(',').map(range).collect::<Option<_>>().map(Picked).ok_or_else(|| format!("--at {text}: not steps"))
}

fn range(text: &str) -> Option<RangeInclusive<usize>> {
    let (first, last) = text.split_once('-').unwrap_or((text, text));
    let (first, last) = (first.parse().ok()?, last.parse().ok()?);
    (1 <= first && first <= last).then_some(first..=last)
}

fn name(names: &mut Names, text: &str) -> Result<(), String> {
    let (slot, name) = text.split_once('=').ok_or_else(|| format!("--name {text}: not SLOT=NAME"))?;
    let slot = slot.parse().ok().filter(|&slot| usize::from(slot) < PROCESSES);
    names.give(Slot(slot.ok_or_else(|| format!("--name {text}: no slot of a process"))?), name);
    Ok(())
}

fn say(says: &mut BTreeMap<usize, String>, text: &str) -> Result<(), String> {
    let (step, words) = text.split_once('=').ok_or_else(|| format!("--say {text}: not STEP=TEXT"))?;
    let step = step.parse().map_err(|_| format!("--say {text}: no step"))?;
    says.insert(step, words.to_string());
    Ok(())
}
