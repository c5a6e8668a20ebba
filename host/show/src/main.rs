//! show [--steps] SCRIPT, show --page SCRIPT, show --svg SCRIPT: see `show --help`.

use show::args::{self, Asked, Form, Options};
use show::{page, play, strip, text};
use std::io::{self, Read, Write};
use std::process::exit;

fn main() {
    let words: Vec<String> = std::env::args_os().skip(1).map(|word| word.to_string_lossy().into_owned()).collect();
    match args::read(&words) {
        Ok(Asked::Help) => println!("{}\n\n{}", args::USAGE, args::HELP),
        Ok(Asked::Show(options)) => show(&options),
        Err(why) => stop(&format!("{why}\n{}", args::USAGE), 2),
    }
}

fn show(options: &Options) {
    let script =
        script(&options.script).unwrap_or_else(|e| stop(&format!("{}: {e}\n{}", options.script, args::USAGE), 2));
    // Nothing is shown that the proved reader of scripts does not say too.
    if let Err(difference) = play::hold(&script) {
        stop(&difference.to_string(), 1);
    }
    let out = &mut io::BufWriter::new(io::stdout().lock());
    let written = match options.form {
        Form::End => text::at_the_end(out, &script, options),
        Form::Steps => text::each_step(out, &script, options),
        Form::Page => out.write_all(page::page(&script, options).as_bytes()),
        Form::Svg => out.write_all(strip::strip(&script, options).as_bytes()),
    };
    if let Err(e) = written.and_then(|()| out.flush()) {
        stop(&format!("standard output: {e}"), 1);
    }
}

fn script(path: &str) -> io::Result<Vec<u8>> {
    if path != "-" {
        return std::fs::read(path);
    }
    let mut script = Vec::new();
    io::stdin().read_to_end(&mut script).map(|_| script)
}

fn stop(why: &str, status: i32) -> ! {
    eprintln!("show: {why}");
    exit(status)
}
