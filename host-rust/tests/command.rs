//! The command `rlc2`, run as a user runs it.

use std::fs;
use std::io::Write;
use std::path::{Path, PathBuf};
use std::process::{Command, Output, Stdio};

fn sample(name: &str) -> String {
    let folder = Path::new(env!("CARGO_MANIFEST_DIR")).join("../samples");
    folder.join(name).display().to_string()
}

/// A file for one test.
fn file(name: &str, bytes: &[u8]) -> String {
    let path = PathBuf::from(env!("CARGO_TARGET_TMPDIR")).join(name);
    fs::write(&path, bytes).expect("a folder for tests");
    path.display().to_string()
}

fn rlc2(words: &[&str]) -> Output {
    rlc2_on(words, b"")
}

fn rlc2_on(words: &[&str], input: &[u8]) -> Output {
    let mut child = Command::new(env!("CARGO_BIN_EXE_rlc2"))
        .args(words)
        .stdin(Stdio::piped())
        .stdout(Stdio::piped())
        .stderr(Stdio::piped())
        .spawn()
        .expect("the command runs");
    let mut stdin = child.stdin.take().expect("piped");
    // The command may end before it reads.
    let _ = stdin.write_all(input);
    drop(stdin);
    child.wait_with_output().expect("the command ends")
}

fn status(output: &Output) -> i32 {
    output.status.code().expect("an exit status")
}

fn stdout(output: &Output) -> &str {
    std::str::from_utf8(&output.stdout).expect("text")
}

fn stderr(output: &Output) -> &str {
    std::str::from_utf8(&output.stderr).expect("text")
}

#[test]
fn samples_pass_and_the_damaged_one_is_refused() {
    let output = rlc2(&["check", &sample("act.rlc2"), &sample("evening.rlc2")]);
    assert_eq!(status(&output), 0, "{}", stderr(&output));
    assert_eq!(stdout(&output).matches(": passed, ").count(), 2);
    let output = rlc2(&["check", &sample("damaged.rlc2"), &sample("title.rlc2")]);
    assert_eq!(status(&output), 1);
    let lines: Vec<_> = stdout(&output).lines().collect();
    assert!(lines[0].contains("refusal 3 at byte "), "{}", lines[0]);
    assert!(lines[0].contains("[C3] 20"), "{}", lines[0]);
    assert!(lines[1].ends_with(": passed, 27 bytes, 2 rows, 1 string"));
    assert_eq!(lines.len(), 2);
    assert!(!stdout(&output).contains('\x1b') && output.stderr.is_empty());
}

#[test]
fn a_file_that_cannot_be_read_does_not_stop_the_others() {
    let folder = env!("CARGO_TARGET_TMPDIR");
    let output = rlc2(&["check", "no such file", folder, &sample("title.rlc2")]);
    assert_eq!(status(&output), 2);
    assert_eq!(stdout(&output).lines().count(), 1);
    assert!(stderr(&output).contains("rlc2: no such file: No such file"));
    assert_eq!(stderr(&output).lines().count(), 2);
}

#[test]
fn standard_input_is_a_dash() {
    let payload = fs::read(sample("title.rlc2")).expect("a sample");
    let output = rlc2_on(&["check", "-"], &payload);
    assert_eq!(status(&output), 0);
    assert!(stdout(&output).starts_with("standard input: passed"));
    let output = rlc2_on(&["check", "-"], b"");
    assert_eq!(status(&output), 1);
    assert!(
        stdout(&output).ends_with("refusal 1 at byte 0: the payload ends inside an item: [end]\n")
    );
}

#[test]
fn names_are_given_by_a_file() {
    let payload = file("native", &[1, 4, b's', b'h', b'o', b'w', 0, 0, 1, 8, 0, 0]);
    let output = rlc2(&["check", &payload]);
    assert_eq!(status(&output), 1);
    assert!(stdout(&output).contains("--names FILE gives the list"));
    let names = file("names", b"hide\nshow\n");
    assert_eq!(status(&rlc2(&["check", &payload, "--names", &names])), 0);
    let output = rlc2(&["list", &payload, &format!("--names={names}")]);
    assert!(stdout(&output).ends_with("1   Native \"show\"\n"));
    let open = file("open names", b"hide\nshow");
    let output = rlc2(&["check", &payload, "--names", &open]);
    assert_eq!(status(&output), 1);
    assert!(stderr(&output).contains("the last line does not end"));
    assert_eq!(status(&rlc2(&["check", &payload, "--names", "none"])), 2);
}

#[test]
fn what_is_not_house_written_is_shown_where_it_departs() {
    let shown = |name, bytes: &[u8]| {
        let output = rlc2(&["check", &file(name, bytes)]);
        assert_eq!(status(&output), 1);
        stdout(&output).to_string()
    };
    let padded = shown("padded", &[0, 0, 0x80, 0, 0, 0]);
    assert!(padded.contains("refusal 19: "), "{padded}");
    assert!(
        padded.contains("differs first at byte 2: 00 00 [80] 00 00 00"),
        "{padded}"
    );
    assert!(
        padded.ends_with("where the writer has 00 00 [00] 00 00\n"),
        "{padded}"
    );
    let longer = shown("longer", &[0, 0, 0, 0, 0, 7, 8]);
    assert!(
        longer.contains("2 bytes after its end: 00 00 00 00 00 [07 08]"),
        "{longer}"
    );
    let unsound = [0, 1, 0, 1, 1, 0, 1, 0, 0]; // a span that starts at -1
    let unsound = shown("unsound", &unsound);
    assert!(
        unsound.contains("its program has no writing: refusal 17 at row 1"),
        "{unsound}"
    );
}

#[test]
fn a_listing_has_a_line_for_each_row() {
    let output = rlc2(&["list", &sample("title.rlc2")]);
    assert_eq!(status(&output), 0);
    let expected = "0 chunk, 4 bytes of code, 1 constant\n1   Str \"Good evening\"\n";
    assert_eq!(stdout(&output), expected);
    let output = rlc2(&["list", "--spans", "--lines", &sample("evening.rlc2")]);
    assert!(stdout(&output).contains("   code 4..8 from 2:1..2:32\n"));
    assert!(stdout(&output).ends_with("  line 8 at 211\n"));
    let output = rlc2(&["list", &sample("damaged.rlc2")]);
    assert_eq!(status(&output), 1);
    assert!(output.stdout.is_empty() && stderr(&output).contains("refusal 3"));
    let trailing = file("trailing", &[0, 0, 0, 0, 0, 9]);
    assert!(stdout(&rlc2(&["list", &trailing])).ends_with("1 byte after its end\n"));
}

#[test]
fn counts_are_of_rows_by_tag() {
    let output = rlc2(&["stat", &sample("evening.rlc2")]);
    assert_eq!(status(&output), 0);
    let has = |name: &str, count: &str| {
        let line = stdout(&output).lines().find(|line| line.starts_with(name));
        assert!(line.is_some_and(|line| line.ends_with(count)), "{line:?}");
    };
    has("bytes ", " 436");
    has("rows ", " 36");
    has("  Function ", " 4");
    has("  Closure ", " 1");
    has("  runs ", " 12");
    has("line starts ", " 8");
    has("deepest value ", " 3");
    assert!(stdout(&output).ends_with("\nhouse-written\n"));
    let longer = file("stat longer", &[0, 0, 0, 0, 0, 7]);
    assert!(stdout(&rlc2(&["stat", &longer])).contains("not house-written (refusal 19"));
}

#[test]
fn help_is_asked_for_and_wrong_words_are_named() {
    for words in [
        &["--help"][..],
        &["check", "--help"],
        &["list", "-h"],
        &["help", "stat"],
    ] {
        let output = rlc2(words);
        assert_eq!(status(&output), 0);
        assert!(stdout(&output).contains("Usage: rlc2"));
    }
    for words in [
        &[][..],
        &["cheque"],
        &["check"],
        &["list", "a", "b"],
        &["stat", "--spans", "a"],
    ] {
        let output = rlc2(words);
        assert_eq!(status(&output), 2);
        assert!(stderr(&output).contains("`rlc2 --help` says more"));
        assert!(output.stdout.is_empty());
    }
}

#[test]
fn the_longest_payload_works_and_a_longer_one_is_refused() {
    let length = 16_777_216 - 9; // count, four bytes of length, and a chunk without anything in it
    let mut payload = vec![1, 0xF7, 0xFF, 0xFF, 0x07];
    payload.extend(vec![b'a'; length]);
    payload.extend([0, 0, 0, 0]);
    assert_eq!(payload.len(), 16_777_216);
    let longest = file("longest", &payload);
    let output = rlc2(&["list", &longest]);
    assert_eq!(status(&output), 0, "{}", stderr(&output));
    assert_eq!(stdout(&output), "0 chunk, 0 bytes of code, 0 constants\n");
    payload.push(0);
    let output = rlc2(&["check", &file("too long", &payload)]);
    assert_eq!(status(&output), 1);
    assert!(stdout(&output).contains("refusal 16: there are more than 16,777,216 bytes"));
}

#[test]
fn a_reader_that_has_had_enough_ends_it_quietly() {
    let mut child = Command::new(env!("CARGO_BIN_EXE_rlc2"))
        .args(["list", &sample("evening.rlc2")])
        .stdout(Stdio::piped())
        .stderr(Stdio::piped())
        .spawn()
        .expect("the command runs");
    drop(child.stdout.take());
    let output = child.wait_with_output().expect("the command ends");
    assert!(output.stderr.is_empty(), "{}", stderr(&output));
}
