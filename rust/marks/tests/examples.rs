//! The command, on the tags of examples/.

use marks::list::{list, program_words};
use marks::text;
use std::fs;
use std::path::Path;
use std::process::{Command, Output};

const ROOT: &str = concat!(env!("CARGO_MANIFEST_DIR"), "/../..");
const TAGS: [&str; 6] = ["clean", "worn", "scuffed", "finer", "erased", "refused"];

/// A status, the words of the command that ends with it, and how its errors begin.
const RUNS: &str = "\
0 check examples/clean.tag examples/worn.marks |
1 check examples/refused.tag | examples/refused.tag: the weights of mark 9 sum to 4097, and
1 check examples/refused.marks | examples/refused.marks: line 15: the weights of mark 9 sum to
1 show examples/none.tag | examples/none.tag: No such file
2  | marks: \"\" is no command
2 draw examples/worn.tag | marks: \"draw\" is no command
0 help |
2 show | marks: show takes a file
2 bytes examples/worn.marks examples/worn.marks | marks: bytes takes one file
2 show examples/worn.txt | marks: examples/worn.txt is no .tag or .marks
";

fn run(words: &str) -> Output {
    let mut command = Command::new(env!("CARGO_BIN_EXE_marks"));
    command.args(words.split_whitespace()).current_dir(ROOT);
    command.output().expect("the command is there")
}

fn kept(name: &str) -> Vec<u8> {
    let file = fs::read(Path::new(ROOT).join(name));
    file.unwrap_or_else(|error| panic!("{name}: {error}"))
}

#[test]
fn the_examples_are_written_as_they_are_kept() {
    for tag in TAGS {
        let file = |extension: &str| format!("examples/{tag}.{extension}");
        for (command, from, to) in [
            ("bytes", "marks", "tag"),
            ("text", "tag", "marks"),
            ("list", "marks", "txt"),
            ("show", "tag", "picture"),
        ] {
            let output = run(&format!("{command} {}", file(from)));
            assert!(output.status.success(), "{output:?}");
            assert!(output.stdout == kept(&file(to)), "{} differs", file(to));
        }
    }
}

#[test]
fn the_readme_shows_what_is_written() {
    let text = |name| String::from_utf8_lossy(&kept(name)).into_owned();
    let (readme, mut written) = (text("README.md"), text("examples/worn.picture"));
    for line in text("examples/worn.txt").lines() {
        written += &format!("the program: {line}\n");
    }
    let from = readme.find("    examples/worn.tag: ").unwrap_or_default();
    let indented = readme[from..]
        .split("\n\n")
        .map_while(|part| part.strip_prefix("    "));
    let shown: Vec<&str> = indented.flat_map(|part| part.split("\n    ")).collect();
    assert!(shown.len() > 10, "README.md does not show worn");
    for line in shown {
        assert!(written.lines().any(|other| other == line), "{line}");
    }
}

#[test]
fn the_text_that_is_explained_is_listed() {
    let readme = String::from_utf8_lossy(&kept("examples/README.md")).into_owned();
    let from = readme.find("    n=4 ").unwrap_or_default();
    let lines = readme[from..]
        .lines()
        .take_while(|line| !line.starts_with("Ticket"));
    let tag = text::read(&lines.collect::<Vec<_>>().join("\n")).tag();
    let listed = program_words(&list(&tag.unwrap_or_default()));
    assert_eq!(listed, "listed 1\nscore 9 message 10\n");
}

#[test]
fn faults_and_misuse_have_their_status() {
    for line in RUNS.lines() {
        let (run_as, said) = line.split_once('|').expect("a line of RUNS");
        let (status, words) = run_as.split_once(' ').expect("a line of RUNS");
        let output = run(words);
        assert_eq!(output.status.code(), status.parse().ok(), "{line}");
        let errors = String::from_utf8_lossy(&output.stderr);
        assert!(errors.starts_with(said.trim()), "{line}: {errors}");
        assert_eq!(errors.is_empty(), said.is_empty(), "{line}: {errors}");
    }
}
