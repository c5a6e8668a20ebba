//! What the program does with its arguments.

mod common;

use common::show;

#[test]
fn mistakes_are_told_with_the_usage() {
    let mistakes: [(&[&str], &str); 12] = [
        (&[], "no script is named"),
        (&["--steps"], "no script is named"),
        (&["docs/no-such-script.txt"], "docs/no-such-script.txt: No such file"),
        (&["docs"], "docs: Is a directory"),
        (&["--colour", "docs/story.txt"], "there is no option --colour"),
        (&["--page", "--svg", "docs/story.txt"], "--svg is a second form"),
        (&["docs/story.txt", "docs/story.txt"], "is a second one"),
        (&["--at"], "--at lacks its value"),
        (&["--at", "0", "docs/story.txt"], "--at 0: not steps"),
        (&["--at", "5-3", "docs/story.txt"], "--at 5-3: not steps"),
        (&["--name", "judge", "docs/story.txt"], "--name judge: not SLOT=NAME"),
        (&["--name", "64=judge", "docs/story.txt"], "--name 64=judge: no slot"),
    ];
    for (words, why) in mistakes {
        let output = show(words, b"");
        let told = String::from_utf8_lossy(&output.stderr);
        assert_eq!(output.status.code(), Some(2), "{words:?}");
        assert!(output.stdout.is_empty() && told.contains(why) && told.contains("\nusage: show "), "{told}");
    }
}

#[test]
fn help_is_no_mistake() {
    let output = show(&["--help"], b"");
    assert!(output.status.success() && output.stderr.is_empty());
    assert!(String::from_utf8_lossy(&output.stdout).starts_with("usage: show "));
}
