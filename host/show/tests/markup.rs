//! The page and the picture: whole, and safe whatever the script has.

mod common;

use common::{shown, STORY};
use show::page;
use show::strip;

/// Walks through the tags, and tells how many elements there are. Each that opens is closed, in order.
fn elements(markup: &str) -> usize {
    let mut open: Vec<&str> = Vec::new();
    let mut count = 0;
    let mut rest = markup.strip_prefix("<!DOCTYPE html>\n").unwrap_or(markup);
    while let Some((before, after)) = rest.split_once('<') {
        let raw = matches!(open.last(), Some(&"style" | &"script"));
        assert!(raw || !before.contains('>'), "a bare > in {before:?}");
        let (tag, after) = after.split_once('>').expect("a tag ends");
        assert_eq!(tag.matches('"').count() % 2, 0, "{tag}");
        count += tag_read(tag, &mut open);
        rest = after;
    }
    assert!(open.is_empty() && rest.trim().is_empty());
    count
}

fn tag_read<'a>(tag: &'a str, open: &mut Vec<&'a str>) -> usize {
    let name = tag.split([' ', '/']).find(|word| !word.is_empty()).expect("a tag has a name");
    if tag.starts_with('/') {
        assert_eq!(open.pop(), Some(name));
        return 0;
    }
    if !tag.ends_with('/') && !["meta", "br"].contains(&name) {
        open.push(name);
    }
    1
}

#[test]
fn markup_is_whole() {
    let whole = |form, script: &[u8]| elements(&shown(&[form], script));
    assert!(whole("--page", STORY) > 300 && whole("--svg", STORY) > 300);
    assert!(common::many(40).iter().all(|script| whole("--page", script) > 5 && whole("--svg", script) > 5));
}

#[test]
fn bytes_of_a_script_are_text() {
    let script = b"<script>alert(1)</script>\n\"'&\x1b\x00\xff<b>\n0 clone\n</svg></style><!--\n";
    let words = ["--title", "<i>\"'&\u{1}", "--name", "1=<u>'\"&", "--say", "2=<s>\"'&"];
    for form in ["--page", "--svg"] {
        let markup = shown(&[&[form][..], &words].concat(), script);
        let own = shown(&[form, "--say", "2=it"], b"?\n?\n0 clone\n?\n");
        assert_eq!(elements(&markup), elements(&own));
        let tags = ["<script", "<b>", "</b>", "<i>", "<u>", "<s>", "<!--", "</style>", "</script>"];
        assert!(tags.iter().all(|tag| markup.matches(tag).count() == own.matches(tag).count()));
        let texts = ["&lt;script&gt;alert(1)&lt;/script&gt;", "&quot;&#39;&amp;\\x1b\\x00\\xff&lt;b&gt;"];
        let given = ["&lt;i&gt;&quot;&#39;&amp;\\x01", "&lt;u&gt;&#39;&quot;&amp;", "&lt;s&gt;&quot;&#39;&amp;"];
        assert!(texts.iter().chain(&given).all(|text| markup.contains(text)));
        assert!(markup.chars().all(|c| c == '\n' || !c.is_control()));
    }
}

#[test]
fn the_page_has_the_story() {
    let page = shown(&["--page"], STORY);
    assert_eq!(page.matches("<section").count(), 15);
    assert_eq!(page.matches("<svg").count(), 15);
    let answers = String::from_utf8(lampfunnel::run(STORY)).expect("answers are ASCII");
    let told: Vec<&str> =
        page.split("<b>answer <code>").skip(1).map(|rest| rest.split("</code>").next().unwrap()).collect();
    assert_eq!(told, answers.lines().collect::<Vec<_>>());
    // It needs nothing from elsewhere.
    assert!(!page.contains("http") && !page.contains("src=") && !page.contains("@import") && !page.contains("url("));
}

#[test]
fn long_scripts_are_cut_and_say_so() {
    let script = b"0 getpid\n".repeat(page::MOST + 1);
    let (page, picture) = (shown(&["--page"], &script), shown(&["--svg"], &script));
    assert_eq!(page.matches("<section").count(), page::MOST);
    assert!(page.contains("The script has 201 lines") && page.contains("a page has at most 200 steps"));
    assert_eq!(picture.matches(">step ").count(), strip::MOST);
    assert!(picture.contains(">24 of 201 steps<"));
    let last = shown(&["--page", "--at", "201"], &script);
    assert!(last.contains("id=\"step-201\"") && last.contains("1 of the script's 201 lines"));
}

/// docs/story.svg is what the program draws. Where it should look otherwise now, at the top of the repository:
/// `xargs -d '\n' -a host/show/story.args host/target/release/show > docs/story.svg`
#[test]
fn the_picture_of_the_documents() {
    let words: Vec<&str> = include_str!("../story.args").lines().collect();
    let output = common::show(&words, b"");
    assert!(output.status.success());
    assert!(output.stdout == include_bytes!("../../../docs/story.svg"), "docs/story.svg is not what the program draws");
}
