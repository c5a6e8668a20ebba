//! The arguments: where the script comes from, and what is told in place of a run.

use faults::{answered, recorder, stopped, whole_lines, Ended, Recorder, EAGAIN, EINTR, EIO, SCRIPT};
use std::fs::{create_dir, read, remove_dir_all, set_permissions, write, OpenOptions, Permissions};
use std::os::unix::fs::PermissionsExt;
use std::path::{Path, PathBuf};

/// The system takes no longer name of a file.
const LONGEST_NAME: usize = 4095;

/// A folder with a file of the name `script`, for as long as a test runs.
struct Folder(PathBuf);

impl Folder {
    fn new(test: &str, script: &[u8]) -> Self {
        let path = Path::new(env!("CARGO_TARGET_TMPDIR")).join(format!("{test}-{}", std::process::id()));
        create_dir(&path).unwrap();
        write(path.join("script"), script).unwrap();
        Folder(path)
    }

    fn name(&self) -> String {
        self.0.display().to_string()
    }

    fn script(&self) -> String {
        self.name() + "/script"
    }
}

impl Drop for Folder {
    fn drop(&mut self) {
        remove_dir_all(&self.0).unwrap();
    }
}

/// The recorder with these arguments, and a script as its standard input that it may have no reason to run.
fn with(arguments: &[&str]) -> Recorder {
    arguments.iter().fold(recorder().script(SCRIPT), Recorder::argument)
}

fn is_line(text: &str) -> bool {
    text.len() > 1 && text.find('\n') == Some(text.len() - 1)
}

/// Whether a text has a word or number, as `-3` but not that of `-38`.
fn has(text: &str, word: &str) -> bool {
    text.split(|c: char| !c.is_ascii_alphanumeric() && c != '-').any(|w| w == word)
}

/// One line on standard error with these words, and nothing else.
fn assert_told(ended: &Ended, words: &[&str]) {
    assert!(is_line(&ended.errors) && ended.errors.starts_with("recorder: "), "{ended:?}");
    assert!(words.iter().all(|word| ended.errors.contains(word)), "{words:?} in {ended:?}");
    assert_eq!(*ended, Ended { errors: ended.errors.clone(), ..answered(b"") });
}

// ---- options

#[test]
fn help_tells_the_usage_the_calls_and_the_refusals() {
    let ended = with(&["--help"]).run();
    assert_eq!(ended, Ended { output: ended.output.clone(), ..answered(b"") });
    assert!(ended.output.starts_with("usage: recorder") && ended.output.contains("kill -1"), "{}", ended.output);
    let calls = "clone new unshare setns getpid getppid exit wait kill handle poll";
    let refusals = "-1001 -22 -38 -3 -16 -10 -28 -12 -11"; // No script can bring about -1000.
    for word in calls.split(' ').chain(refusals.split(' ')) {
        assert!(has(&ended.output, word), "{word} in {}", ended.output);
    }
}

#[test]
fn version_is_a_line() {
    let ended = with(&["--version"]).run();
    assert!(is_line(&ended.output), "{ended:?}");
    assert_eq!(ended, Ended { output: ended.output.clone(), ..answered(b"") });
}

#[test]
fn what_is_told_is_written_as_answers_are() {
    for option in ["--help", "--version"] {
        let right = with(&[option]).run();
        assert_eq!(with(&[option]).writes(&[EINTR, 1, EAGAIN, 2, EINTR]).run(), right);
        let cut = Ended { output: right.output[..4].into(), ..stopped(b"", "standard output: Input/output error") };
        assert_eq!(with(&[option]).writes(&[4, EIO]).run(), cut);
        let full = OpenOptions::new().write(true).open("/dev/full").unwrap();
        assert_eq!(with(&[option]).output(full).run(), stopped(b"", "standard output: No space left on device"));
    }
}

#[test]
fn another_option_is_named_and_nothing_is_run() {
    for option in ["-h", "-x", "--", "--hel", "--helpp", "--Version", "--version=1", "-0 getpid"] {
        assert_told(&with(&[option]).run(), &[option, "--help"]);
    }
}

#[test]
fn nothing_is_run_with_more_than_one_argument() {
    let folder = Folder::new("second", SCRIPT);
    let script = folder.script();
    for arguments in [&["-", "-"][..], &["--help", "-"], &["--version", "-"], &[&script, &script], &["-", "-", "-"]] {
        assert_told(&with(arguments).run(), &["argument", "--help"]);
    }
}

// ---- files

#[test]
fn a_dash_is_standard_input() {
    assert_eq!(with(&["-"]).run(), answered(SCRIPT));
    let right = stopped(whole_lines(&SCRIPT[..12]), "standard input: Input/output error");
    assert_eq!(with(&["-"]).reads(&[12, EIO]).run(), right);
}

#[test]
fn a_file_is_run_in_place_of_standard_input() {
    let long = "0 getpid\n1 getpid\n".repeat(4000);
    for (n, script) in ["", "0 getpid", "0 clone\n", "0 clone\n1 exit 15\n0 wait\n", &long].into_iter().enumerate() {
        let folder = Folder::new(&format!("file{n}"), script.as_bytes());
        assert_eq!(with(&[&folder.script()]).run(), answered(script.as_bytes()));
    }
}

#[test]
fn a_file_is_run_where_standard_input_is_closed() {
    let folder = Folder::new("no-input", SCRIPT);
    assert_eq!(with(&[&folder.script()]).closed(0).run(), answered(SCRIPT));
}

#[test]
fn a_file_is_left_as_it_was_where_standard_output_is_closed() {
    let folder = Folder::new("no-output", SCRIPT);
    let ended = with(&[&folder.script()]).closed(1).run();
    assert_eq!(ended, stopped(b"", "standard output: Bad file descriptor"));
    assert_eq!(read(folder.script()).unwrap(), SCRIPT);
}

#[test]
fn a_file_is_read_as_standard_input_is() {
    let folder = Folder::new("read", SCRIPT);
    let name = folder.script();
    assert_eq!(with(&[&name]).reads(&[12, EINTR, 1, EAGAIN]).run(), answered(SCRIPT));
    let right = stopped(whole_lines(&SCRIPT[..12]), &format!("{name}: Input/output error"));
    assert_eq!(with(&[&name]).reads(&[12, EIO]).run(), right);
}

#[test]
fn a_file_that_is_not_there_is_named() {
    let folder = Folder::new("missing", SCRIPT);
    let name = folder.name() + "/other";
    assert_eq!(with(&[&name]).run(), stopped(b"", &format!("{name}: No such file or directory")));
    assert_eq!(with(&["other"]).run(), stopped(b"", "other: No such file or directory"));
}

#[test]
fn an_empty_name_is_no_file() {
    assert_told(&with(&[""]).run(), &[": No such file or directory\n"]);
}

#[test]
fn a_directory_is_no_file() {
    let folder = Folder::new("directory", SCRIPT);
    let name = folder.name();
    assert_eq!(with(&[&name]).run(), stopped(b"", &format!("{name}: Is a directory")));
}

#[test]
fn a_file_that_may_not_be_read_is_named() {
    let folder = Folder::new("forbidden", SCRIPT);
    let name = folder.script();
    set_permissions(&name, Permissions::from_mode(0o000)).unwrap();
    let ended = with(&[&name]).heeding_permissions().run();
    assert_eq!(ended, stopped(b"", &format!("{name}: Permission denied")));
}

#[test]
fn the_longest_name_is_taken_and_told_whole() {
    let folder = Folder::new("longest", SCRIPT);
    let slashes = |end: &str| "/".repeat(LONGEST_NAME - folder.name().len() - end.len());
    let script = format!("{}{}script", folder.name(), slashes("script"));
    assert_eq!(with(&[&script]).run(), answered(SCRIPT));
    let other = format!("{}{}other", folder.name(), slashes("other"));
    assert_eq!(with(&[&other]).run(), stopped(b"", &format!("{other}: No such file or directory")));
}

#[test]
fn a_longer_name_is_no_file() {
    for n in [LONGEST_NAME + 1, LONGEST_NAME + 2, 5000, 60_000] {
        assert_told(&with(&[&"/".repeat(n)]).run(), &[": File name too long\n"]);
    }
}

#[test]
fn a_long_option_is_no_option() {
    for n in [LONGEST_NAME + 1, LONGEST_NAME + 2, 5000, 60_000] {
        assert_told(&with(&[&"-".repeat(n)]).run(), &[]);
    }
}
